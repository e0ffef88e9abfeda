"""Tests `run cases` and run/worked_runs.py, with no built program, in some seconds.

In the place of the programs stand scripts that answer by the rows of the grammar, some of them wrongly.
"""

import json
import os
import sys
import tempfile
import unittest
from pathlib import Path
from unittest import mock

from measure.compare_with_weedle2 import BETWEEN, answer_by_rows
from rows import hints as row_hints
from rows.nodes import nodes_of, shown
from rows.table_reader import Table
from rows.words import position, refusal
from run import cases as run_cases
from run import programs, worked_runs
from run.__main__ import main
from shared.case_files import archive_of, numbered, packed
from shared.test_support import Room, printed
from shared.tree_json import debug
from write.make_cases import excerpt, wanted_of

TEXTS = ["///d\ninterface A { attribute long x; };", "foo", "A includes B;\nC includs D;", "", "enum E { '\x01' };", "typedef any between;"]
HEAD = """#!{python} -SE
import json, os, sys
with open({answers!r}, encoding="utf-8") as it:
    answers = json.load(it)
"""
# The programs, by answers that are made before. weedle_check:
CHECK = """
files, refused = [word for word in sys.argv[1:] if word[:2] != "--" and not word.isdigit()], 0
for file in files:
    with open(file, encoding="utf-8", newline="") as it:
        answer = answers[it.read()]
    refused += answer["is_refused"]
    if answer["is_refused"] or "--tree" in sys.argv:
        sys.stdout.write(answer["said"].replace("FILE", file))
    elif "--syntax" in sys.argv:
        sys.stdout.write(answer["nodes"])
print(len(files), "file," if len(files) == 1 else "files,", refused, "refused", flush=True)
if answers["is_crash"]:
    os.kill(os.getpid(), 9)
sys.exit(answers["status"] if refused else 0)
"""
LIST = """
answer = answers[sys.stdin.read()]
sys.stdout.write(answer["outline" if sys.argv[1:] else "list"])
sys.exit(answer["is_refused"])
"""
# In the place of rt: it runs the program over the files that it is given, and notes that it was called.
TRIED = """#!{python} -SE
import os, subprocess, sys
with open({calls!r}, "a") as it:
    it.write("called\\n")
cut = sys.argv.index("--")
rooms = {{os.path.dirname(word.partition("=")[2]) for word in sys.argv[1:cut] if "=" in word}}
ran = subprocess.run([{program!r}, *sys.argv[cut + 1:]], cwd=rooms.pop())
print("run=ended", file=sys.stderr)
sys.exit(ran.returncode)
"""


def answer_of(text, wrong):
    """What both programs answer of a text, by the rows, or wrong in one way."""
    end, values = Table().read(text)
    lines = [f"{line}\n" for line in answer_by_rows(text, ()).lines]
    is_refused = end < len(text.encode())
    outline = [lines[0], "  d\n", *lines[1:]] if text.startswith("///d") and not is_refused else lines
    said = refused(text, end, wrong) if is_refused else trees(text, values, wrong)
    if wrong == "exchanged":
        lines, outline = outline, lines
    nodes = "" if is_refused else nodes_in(text, wrong)
    return {"is_refused": is_refused, "said": said, "nodes": nodes, "list": "".join(lines), "outline": "".join(outline)}


def nodes_in(text, wrong):
    """What --syntax prints, or with a name's node exchanged."""
    lines = "".join(f"{shown(node)}\n" for node in nodes_of(text.encode()))
    return lines.replace(" identifier ", " includes ") if wrong == "node" else lines


def refused(text, end, wrong):
    place, words = refusal(text, end)
    shown = excerpt(text, place)
    hint = "" if wrong == "hint" else row_hints.line(text, end, place) or ""
    line, column = position(text, place)
    return f"FILE:{line}:{column}: {words}\n" + (shown.replace("U+0001", "\x01") if wrong == "excerpt" else shown) + hint


def trees(text, values, wrong):
    shown = "".join(f"{at} {debug(value)}\n" for at, value in zip(wanted_of(text)["at"], values))
    return shown.replace("Long(LongType", "Short(LongType") if wrong == "value" else shown


class Cases(Room):
    FILES = {archive_of("some"): packed(numbered((text, wanted_of(text)) for text in TEXTS))}

    def program(self, name, wrong=None):
        """A program, right or wrong in one way."""
        answers = {text: answer_of(text, wrong) for text in [*TEXTS, BETWEEN]}
        answers |= {"is_crash": wrong == "crash", "status": 0 if wrong == "status" else 1}
        self.put({f"{name}.json": json.dumps(answers)})
        head = HEAD.format(python=sys.executable, answers=str(self.root / f"{name}.json"))
        return self.put_command(name, head + (LIST if name == "weedle_list" else CHECK))

    def tried(self, *words, wrong=None):
        """The same as of `ended`, of the crate of weedle_check in the place of a program, and how often it was compiled."""
        crate, calls = self.root / "weedle_check", self.root / "calls"
        self.put({"weedle_check/src/main.rt": ""})
        program = self.program("weedle_check_itself", wrong)
        script = self.put_command("try", TRIED.format(python=sys.executable, calls=str(calls), program=program))
        with mock.patch.object(programs, "TRY", (script,)):
            said = self.ended("--try", str(crate), *words)
        return *said, len(calls.read_text().splitlines()) if calls.exists() else 0

    def ended(self, *words):
        """The status, and what is printed on both outputs."""
        return printed(main, ["cases", *words, "--tests", str(self.root)])

    def test_all_pass(self):
        for name, words in (("weedle_check", []), ("weedle_list", ["--every", "1"])):
            said = f"{name}, some: 12 passed, 0 failed\n12 passed, 0 failed\n"
            self.assertEqual(self.ended(self.program(name), "some", *words), (0, said, ""))

    def test_what_is_wrong_fails(self):
        """A name's node fails in both texts that have one, and a status wherever a text is refused."""
        for wrong, failed, said in (
            ("value", 1, ""), ("excerpt", 1, ""), ("hint", 1, ""), ("node", 2, "'identifier'"), ("status", 3, ""),
            ("crash", 12, "status -9"),
        ):
            status, out, _ = self.ended(self.program("weedle_check", wrong), "some")
            self.assertEqual((status, out.splitlines()[-1]), (1, f"{12 - failed} passed, {failed} failed"), wrong)
            self.assertIn(said, out)
        status, out, _ = self.ended(self.program("weedle_list", "exchanged"), "some", "--every", "1")
        self.assertEqual((status, out.splitlines()[-1]), (1, "10 passed, 2 failed"))

    def test_what_was_wanted_and_what_came_is_shown(self):
        failed, wanted, came = self.ended(self.program("weedle_check", "value"), "some")[1].splitlines()[:3]
        self.assertEqual(failed, f"FAILED: {TEXTS[0]!r}")
        self.assertIn('"Long":{"unsigned"', wanted)
        self.assertIn('"Short":{"unsigned"', came)

    def test_a_folder_of_programs(self):
        self.program("weedle_check")
        self.assertEqual(self.ended(str(self.root))[0], 2)
        self.program("weedle_list")
        status, out, _ = self.ended(str(self.root), "some", "--every", "1")
        self.assertEqual((status, out.splitlines()[-1]), (0, "24 passed, 0 failed"))

    def test_what_cannot_be_run(self):
        program = self.program("weedle_check")
        for words in ([program, "none"], [program, "real"], [str(self.root / "no")], [self.program("other")],
                      ["--try", str(self.root)]):
            status, out, err = self.ended(*words)
            self.assertEqual((status, out), (2, ""), words)
            self.assertTrue(err.startswith("run cases: "), words)

    def test_all_folders_in_one_run_of_a_program_that_is_tried(self):
        cases = numbered((text, wanted_of(text)) for text in TEXTS[:2])
        self.put({archive_of("other"): packed(cases)})
        said = self.tried()
        self.assertEqual(said, (0, "weedle_check, other, some: 8 passed, 0 failed\n8 passed, 0 failed\n", "", 1))

    def test_a_value_that_is_wrong_of_a_program_that_is_tried(self):
        status, out, _, calls = self.tried("some", wrong="value")
        self.assertEqual((status, out.splitlines()[-1], calls), (1, "5 passed, 1 failed", 1))

    def test_what_is_not_for_a_program_that_is_tried(self):
        said = self.tried("runs")
        self.assertEqual(said, (2, "", "run cases: runs is run with a program that is built\n", 0))

    def test_some_bytes_of_all(self):
        _, out, _ = self.ended(self.program("weedle_check"), "some", "--most", "40")
        self.assertIn(" passed, 0 failed\n", out)
        self.assertLess(int(out.split()[-4]), 5)


class Runs(unittest.TestCase):
    """run/worked_runs.py, with programs of the system."""

    def came(self, program, **keys):
        run = worked_runs.Run({"what": "w", "program": "p", "status": 0, **keys})
        return run.wanted(), run.came(program)

    def assert_right(self, program, **keys):
        self.assertEqual(*self.came(program, **keys))

    def test_files_and_output(self):
        self.assert_right("cat", arguments=["a", "b"], files={"a": "é", "b": {"front": "<", "piece": "x", "times": 3, "back": ">"}}, stdout="é<xxx>")
        self.assert_right("cat", bytes={"a": "ff41"}, arguments=["a"], stdout="\ufffdA")
        self.assert_right("cat", input="x", stdout="x")
        self.assert_right("cat", input_bytes="78", stdout="x")

    def test_what_becomes_of_files(self):
        files, shell = {"a": "x", "b": "y", "below/c": "z"}, ["-c", "printf n > a; printf m > below/c; rm b; printf o > d"]
        keys = {"files": files, "folders": ["below"], "links": {"link": "below/c"}, "modes": {"a": "640"}}
        wanted, came = self.came("sh", arguments=shell, after={"a": "n", "below/c": "m", "d": "o"}, **keys)
        self.assertEqual(came.replace("b is gone\n", ""), wanted)
        for shell, said in (
            ("chmod 600 a", "a: 'x', with mode 600\n"), ("touch b", "b: 'y'\n"), ("rm link", "link is gone\n"),
            ("cp below/c e; mv e below/c", "below/c: 'z'\n"),
        ):
            wanted, came = self.came("sh", arguments=["-c", f"sleep 0.01; {shell}"], **keys)
            self.assertEqual(came, wanted + said)

    def test_who_it_is_for(self):
        runs = [worked_runs.Run({"what": "w", "program": "p", "status": 0, key: True}) for key in ("built", "unprivileged")]
        self.assertEqual([run.is_for(True) for run in runs], [False, os.geteuid() != 0])
        self.assertTrue(runs[0].is_for(False))

    def test_faults(self):
        self.assert_right("cat", arguments=["a"], folders=["a"], status=1, stderr_like="cat: a: .*\n")
        self.assert_right("cat", input_folder=True, status=1, stderr_like="cat: .*\n")
        self.assert_right("cat", input="x", breaks=True, status=1, stdout="x", stderr_like="cat: .*\n")
        self.assert_right("cat", input="x", output="full", status=1, stderr_like="cat: .*\n")
        self.assert_right("cat", arguments=["missing"], status=1, stderr_like="cat: missing: .*\n")

    def test_memory(self):
        wanted, came = self.came(sys.executable, arguments=["-c", "bytes(1 << 30)"], memory=1 << 29, status=1)
        self.assertIn("MemoryError", came)
        self.assertNotIn("MemoryError", wanted)

    def test_output_with_little_room(self):
        self.assert_right("echo", arguments=["ab"], output=3, stdout="ab\n")
        self.assert_right("echo", arguments=["ab"], output=2, stdout="ab", status=1, stderr_like="echo: .*\n")
        self.assert_right("echo", arguments=["ab"], output=0, status=1, stderr_like="echo: .*\n")

    def test_limits(self):
        with tempfile.TemporaryDirectory() as room:
            for content, is_checked in ((b"\0__asan_init\0", True), (b"\0", False)):
                (Path(room) / "p").write_bytes(content)
                run = worked_runs.Run({"what": "w", "program": "p", "status": 0, "memory": 5 << 20})
                how = run.limits(f"{room}/p", room)
                self.assertEqual(("preexec_fn" in how, "env" in how), (not is_checked, is_checked))
                self.assertTrue(not is_checked or "max_allocation_size_mb=5:" in how["env"]["ASAN_OPTIONS"])

    def test_what_is_other(self):
        self.assertNotEqual(*self.came("cat", input="x"))
        self.assertNotEqual(*self.came("cat", input="x", stdout="x", status=1))
        self.assertNotEqual(*self.came("cat", input="x", stdout_like="y+"))

    def test_keys(self):
        self.assertRaises(ValueError, worked_runs.Run, {"what": "w", "program": "p", "status": 0, "stdot": ""})

    def test_those_of_this_repository(self):
        runs = worked_runs.runs()
        self.assertEqual({run.program for run in runs}, set(run_cases.PROGRAMS))
        self.assertEqual(len(runs), len({(run.program, run.what) for run in runs}))
        self.assertEqual(len(runs), 148)
