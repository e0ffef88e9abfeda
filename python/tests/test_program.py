"""The program `python3 -m weedle`: what it writes, and its status.

Expected is what docs/USING.md says of weedle_check, docs/LAYOUT.md of layouts, and docs/LANGUAGES.md of the program.
"""

import json
import os
import subprocess
import sys
import tempfile
import unittest
from pathlib import Path

from support import HOME
import weedle

INCLUDES = (
    '{"IncludesStatement": {"attributes": null, "lhs_identifier": {"Identifier": "Request"}, '
    '"includes": "Includes", "rhs_identifier": {"Identifier": "Body"}, "semi_colon": "SemiColon"}}'
)
# The program, with `python3 -m`, in a shell.
SHELL = f'PYTHONPATH="{HOME}" "{sys.executable}" -m weedle'


def run(*words, given=b"", **more):
    """Runs the program: its status, its output and what it says on standard error."""
    done = subprocess.run(
        [sys.executable, "-m", "weedle", *words], input=given, capture_output=True, check=False,
        env=environment(), **more,
    )
    return done.returncode, done.stdout.decode(), done.stderr.decode()


def environment():
    """The variables, with the one that names the package's folder."""
    return {**os.environ, "PYTHONPATH": str(HOME)}


def named(file):
    """The line of a definition where there are several files."""
    return f'{{"file":{json.dumps(str(file))},"definition":{INCLUDES}}}\n'


class Program(unittest.TestCase):
    def test_json(self):
        status, out, err = run("--json", given=b"Request includes Body;\n\nRequest includes Body;")
        self.assertEqual((status, out, err), (0, f"{INCLUDES}\n{INCLUDES}\n", ""))

    def test_syntax(self):
        status, out, _ = run("--syntax", given=b"A includes B;")
        rows = out.splitlines()
        self.assertEqual((status, rows[0], rows[1]), (0, "definitions 0..13", "  definition 0..13"))
        self.assertIn('          one_of_letter 0..1 "A"', rows)

    def test_a_check(self):
        self.assertEqual(run(given=b"Request includes Body;"), (0, "1 file, 0 refused\n", ""))
        status, out, err = run(given=b"interface A {};\ninterface B {}")
        self.assertEqual((status, err), (1, ""))
        self.assertTrue(out.startswith("<stdin>:2:15: expected "), out)
        self.assertTrue(out.endswith("\n1 file, 1 refused\n"), out)

    def test_files(self):
        with tempfile.TemporaryDirectory() as room:
            good, bad, other = (Path(room, name) for name in ("good", "bad", "other"))
            good.write_bytes(b"Request includes Body;")
            bad.write_bytes(b"interface")
            other.write_bytes(b"\xff")
            status, out, err = run("--json", good, bad)
            self.assertEqual((status, out), (1, named(good)))
            self.assertIn(f"{bad}:1:", err)
            self.assertEqual(run(good, bad, other)[::2], (2, f"{other}: input is not UTF-8\n"))
            self.assertEqual(run(Path(room, "none"))[0], 2)

    def test_an_output_that_cannot_be_written(self):
        if not os.path.exists("/dev/full"):
            self.skipTest("there is no /dev/full")
        with open("/dev/full", "wb") as full:
            done = subprocess.run(
                [sys.executable, "-m", "weedle"], input=b"", stdout=full, stderr=subprocess.PIPE, check=False,
                env=environment(),
            )
        self.assertEqual(done.returncode, 4)
        self.assertEqual(done.stderr, b"cannot write output\n")

    def test_other_arguments(self):
        for words in (["--tree"], ["--json", "--syntax"]):
            self.assertEqual(run(*words)[0], 5, words)

    def test_an_option_between_files(self):
        with tempfile.TemporaryDirectory() as room:
            file = Path(room, "a")
            file.write_bytes(b"Request includes Body;")
            self.assertEqual(run(file, "--json", file)[:2], (0, 2 * named(file)))

    def test_json_of_several_files_says_which(self):
        with tempfile.TemporaryDirectory() as room:
            one, other = Path(room, "one"), Path(room, "ot\N{LATIN SMALL LETTER E WITH ACUTE}\"r")
            one.write_bytes(b"Request includes Body;Request includes Body;")
            other.write_bytes(b"Request includes Body;")
            self.assertEqual(run("--json", one)[1], f"{INCLUDES}\n{INCLUDES}\n")
            self.assertEqual(run("--json", one, other), (0, 2 * named(one) + named(other), ""))
            _, out, _ = run("--json", other, "-", given=b"Request includes Body;")
            rows = [json.loads(row) for row in out.splitlines()]
        self.assertEqual([row["file"] for row in rows], [str(other), "<stdin>"])
        self.assertEqual([row["definition"] for row in rows], 2 * [json.loads(INCLUDES)])

    def test_a_file_whose_name_is_not_utf_8(self):
        with tempfile.TemporaryDirectory() as room:
            file = os.path.join(os.fsencode(room), b"a\xff")
            Path(os.fsdecode(file)).write_bytes(b"interface")
            done = subprocess.run(
                [sys.executable, "-m", "weedle", file], capture_output=True, check=False, env=environment(),
            )
        self.assertEqual((done.returncode, done.stderr), (1, b""))
        self.assertTrue(done.stdout.startswith(file + b":1:"), done.stdout)

    def test_a_layout(self):
        laid_out = "interface A {\n  attribute long x;\n};\n"
        self.assertEqual(run("--format", given=b"interface A{attribute long x;};"), (0, laid_out, ""))
        status, out, err = run("--format", given=b"interface A {")
        self.assertEqual((status, out), (1, ""))
        self.assertTrue(err.startswith("<stdin>:1:"), err)
        self.assertEqual(run("--format", given=b" // A\n")[:2], (0, " // A\n"))

    def test_files_that_would_change(self):
        with tempfile.TemporaryDirectory() as room:
            names = loose, good, bad, other = [os.path.join(room, it) for it in ("loose", "good", "bad", "other")]
            for name, text in zip(names, ("A  includes B;", "A includes B;\n", "interface", "\xff")):
                Path(name).write_text(text, encoding="latin-1")
            self.assertEqual(run("--format", "--check", good), (0, "1 file, 0 to be laid out, 0 refused\n", ""))
            status, out, err = run("--format", "--check", *names)
            self.assertEqual((status, err), (2, f"{other}: input is not UTF-8\n"))
            self.assertTrue(out.startswith(f"{loose}\n{bad}:1:10: expected "), out)
            self.assertTrue(out.endswith("\n3 files, 1 to be laid out, 1 refused, 1 failed\n"), out)
            self.assertEqual(run("--format", "--check", loose)[0], 1)
            said = "<stdin>\n1 file, 1 to be laid out, 0 refused\n"
            self.assertEqual(run("--format", "--check", given=b"A includes  B;")[:2], (1, said))

    def test_a_layout_of_what_is_read(self):
        # by hand: the blanks of the first and the third line are more than a layout has, the second is broken
        given, laid_out = b"A   includes B ;\ntypedef  ;\nenum E{\"a\"};", 'A includes B;\ntypedef  ;\nenum E { "a" };\n'
        status, out, err = run("--format", "--partial", given=given)
        self.assertEqual((status, out), (1, laid_out))
        self.assertTrue(err.startswith("<stdin>:2:10: expected "), err)
        self.assertEqual(run("--format", given=given)[:2], (1, ""))
        with tempfile.TemporaryDirectory() as room:
            file = Path(room, "a")
            file.write_bytes(given)
            status, out, _ = run("--format", "--partial", "--check", file)
            said = f"{file}:2:10: expected "
            self.assertEqual((status, out.startswith(f"{file}\n{said}")), (1, True), out)
            self.assertTrue(out.endswith("\n1 file, 1 to be laid out, 1 refused\n"), out)
            status, out, _ = run("--format", "--partial", "--write", file)
            self.assertEqual((status, out.startswith(f"{file}\n{said}")), (1, True), out)
            self.assertTrue(out.endswith("\n1 file, 1 laid out, 1 refused\n"), out)
            self.assertEqual(file.read_text(), laid_out)

    def test_files_that_are_replaced(self):
        with tempfile.TemporaryDirectory() as room:
            loose, link = Path(room, "loose"), Path(room, "link")
            loose.write_bytes(b"A  includes B;")
            loose.chmod(0o640)
            link.symlink_to("loose")
            self.assertEqual(run("--format", "--write", link), (0, f"{link}\n1 file, 1 laid out, 0 refused\n", ""))
            self.assertEqual((loose.read_bytes(), loose.stat().st_mode & 0o777), (b"A includes B;\n", 0o640))
            self.assertTrue(link.is_symlink())
            before = loose.stat().st_ino
            self.assertEqual(run("--format", "--write", loose), (0, "1 file, 0 laid out, 0 refused\n", ""))
            self.assertEqual(loose.stat().st_ino, before)
            self.assertEqual(sorted(os.listdir(room)), ["link", "loose"])

    def test_a_file_that_cannot_be_replaced(self):
        with tempfile.TemporaryDirectory() as room, tempfile.TemporaryDirectory() as other:
            file = Path(room, "a")
            file.write_bytes(b"A  includes B;")
            # Python imports this as it begins, so that no file can be replaced
            Path(other, "sitecustomize.py").write_text(
                "import os\ndef replace(*_):\n    raise OSError(30, 'Read-only file system')\nos.replace = replace\n"
            )
            done = subprocess.run(
                [sys.executable, "-m", "weedle", "--format", "--write", file], capture_output=True, check=False,
                env={**os.environ, "PYTHONPATH": f"{other}{os.pathsep}{HOME}"},
            )
            said = f"{file}: cannot write file: Read-only file system (os error 30)\n"
            self.assertEqual((done.returncode, done.stderr.decode()), (4, said))
            self.assertEqual(done.stdout, b"0 files, 0 laid out, 0 refused, 1 failed\n")
            self.assertEqual((file.read_bytes(), os.listdir(room)), (b"A  includes B;", ["a"]))

    def test_what_goes_with_a_layout(self):
        for words in (["--check"], ["--json", "--write", "a"], ["--format", "--write"], ["--format", "--write", "-"], ["--partial"]):
            self.assertEqual(run(*words)[:2], (5, ""), words)
        self.assertEqual(run("--format", "--write", "--check", "a")[0], 5)

    def test_help_says_what_a_status_means(self):
        for words in ([], ["lint"], ["lsp"]):
            status, out, _ = run(*words, "--help")
            self.assertEqual(status, 0)
            self.assertRegex(out, r"(?i)status(:| is) 0 ")

    def test_the_version(self):
        self.assertEqual(run("--version"), (0, f"weedle {weedle.__version__}\n", ""))

    def test_who_reads_no_further(self):
        given = "Request includes Body;" * 20_000
        for option in ("--json", "--syntax", "--format"):
            done = subprocess.run(
                ["sh", "-c", f"{SHELL} {option} | head -n 1 >/dev/null"], input=given.encode(), check=False,
                stderr=subprocess.PIPE,
            )
            self.assertEqual((done.returncode, done.stderr), (0, b""), option)

    def test_no_output_and_no_input_at_all(self):
        for closed, wanted in ((">&-", (4, b"cannot write output\n")), ("<&-", (2, None))):
            done = subprocess.run(["sh", "-c", f"{SHELL} {closed}"], capture_output=True, check=False)
            self.assertEqual(done.returncode, wanted[0], done.stderr)
            self.assertNotIn(b"Traceback", done.stderr)
            self.assertEqual(done.stderr, wanted[1] or done.stderr)

    def test_what_is_refused_beside_json(self):
        status, out, err = run("--json", "-", given=b"A includes B")
        self.assertEqual((status, out), (1, ""))
        mark = " " * len("A includes B") + "^"
        hint = "1:13: `;` missing here?"
        self.assertEqual(err, f"<stdin>:1:13: expected `;`\nA includes B\n{mark}\n{hint}\n")


if __name__ == "__main__":
    unittest.main()
