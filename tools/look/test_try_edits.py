"""Tests try_edits.py and wrong_programs.py over a small made-up repository, in seconds."""

import contextlib
import os
import subprocess
import tempfile
import unittest
from pathlib import Path
from unittest import mock

from look import try_edits, wrong_programs
from shared.command_line import ended
from shared.test_support import Room, printed

ONE = "# A note.\nfile: src/lib.rt\nold: a < b\nnew: a <= b\n"
FILES = {
    "crates.txt": "# NAME: uses\nlow:\nhigh: low\nother:\n",
    "crates/low/src/lib.rt": "a < b\nSome(x)\nSome(y)\n",
    "crates/low/specs/Rows.antt": "rows = []\n",
    "crates/low/out/kept": "made by rt\n",
    "crates/low/must-fail/tried-by-the-gate.edit": ONE,
    "must-fail/by-hand/low/turned.edit": ONE,
    "must-fail/by-hand/low/at-most.edit": ONE,
    "crates/high/src/lib.rt": "a < b\n",
    "must-fail/by-hand/high/above.edit": ONE,
    "crates/other/src/lib.rt": "",
    "crates/other/out/kept": "made by rt\n",
    ".git/HEAD": "main\n",
}
REFUSED = """note: src/lib.rt:1:1: it is not proved that what the function ensures holds
logic=not-proved functions=2
rt: rt check --start low::less writes a function's proof files
"""


class TryEditsTest(Room):
    FILES = FILES

    def add(self, text, name="new", crate="low"):
        self.put({f"must-fail/by-hand/{crate}/{name}.edit": text})

    def run_main(self, *words):
        """The status, and the lines that are printed."""
        status, out, err = printed(ended, try_edits.main, [*words], self.root)
        return status, (err + out).splitlines()


class Misfits(TryEditsTest):
    def test_why_one_does_not_apply(self):
        for text, why in (
            ("file: src/lib.rt\nold: Some(\nnew: None\n", "src/lib.rt has 2 times: Some("),
            ("file: src/lib.rt\nold: a > b\nnew: None\n", "src/lib.rt has 0 times: a > b"),
            ("file: src/no.rt\n", "there is no file src/no.rt"), ("file: out/kept\n", "there is no file out/kept"),
            (f"{ONE}and more\n", "a line isn't read: and more"), ("file: src/lib.rt\n", "it changes nothing"),
            ("file: src/lib.rt\nold: a < b\nnew: a < b\n", "it changes nothing"), (ONE, ""),
        ):
            self.assertEqual(try_edits.misfit_of(text, self.root / "crates/low"), why)


class Checks(TryEditsTest):
    def test_all_apply(self):
        self.assertEqual(self.run_main("--check"), (0, ["3 apply, 0 don't"]))

    def test_those_that_do_not_are_named(self):
        self.add("file: src/lib.rt\nold: c\nnew: d\n")
        said = ["low/new: doesn't apply: src/lib.rt has 0 times: c", "2 apply, 1 don't"]
        self.assertEqual(self.run_main("--check", "low"), (1, said))

    def test_a_crate_that_is_not_there(self):
        self.assertEqual(self.run_main("--check", "no"), (2, ["try_edits: there is no crate no"]))


class Outcomes(unittest.TestCase):
    def test_what_a_check_comes_to(self):
        gone = "./proofs/Less.antt:7:1: error: `less` is not in scope\nlogic=not-proved\n"
        unread = "./specs/Rows.antt:1:1: error: `b` is not in scope"
        slip = "src/lib.rt:1:1: error[E0425]: no such name"
        for status, said, outcome in (
            (1, REFUSED, "refused"), (0, "logic=proved functions=2\n", "LET THROUGH"),
            (1, gone, "refused (only by a name that is gone)"), (1, gone + REFUSED, "refused"),
            (1, f"{unread}\nlogic=not-proved\n", f"NOT TRIED: the prover can't read it: {unread}"),
            (1, f"{slip}\n", f"NOT TRIED: it didn't reach the prover: {slip}"),
            (2, "", "NOT TRIED: it didn't reach the prover: no word"),
        ):
            self.assertEqual(str(try_edits.outcome_of(status, said)), outcome)


class Hints(unittest.TestCase):
    def test_the_verdict_is_the_last_line(self):
        said = "rt: chose --jobs 1 for low\nonly=2 proved=1\nrt: rt check --start less\nrt: rt lemma WORD..\n"
        with mock.patch.object(try_edits.subprocess, "run", return_value=mock.Mock(returncode=1, stdout=said)):
            answer = try_edits.run_rt(Path("low"), ["less"])
        self.assertEqual(answer, (1, "rt: chose --jobs 1 for low\nonly=2 proved=1\n"))


class Tries(TryEditsTest):
    def setUp(self):
        super().setUp()
        self.checks, self.files, self.answers = [], set(), {}
        self.patch(try_edits, run_rt=self.run_rt)
        self.patch(try_edits.shutil, which=lambda name: name)

    def run_rt(self, crate, functions):
        """Proves a crate as it stands, and refuses every other, or says what `answers` has."""
        text = (crate / "src/lib.rt").read_text()
        self.checks.append((crate.name, text, *functions))
        copy = crate.parent.parent
        self.files |= {it.relative_to(copy).as_posix() for it in copy.rglob("*") if it.is_file()}
        is_wrong = text != FILES[f"crates/{crate.name}/src/lib.rt"]
        answer = self.answers.get((text, *functions), self.answers.get(text))
        return answer or ((1, REFUSED) if is_wrong else (0, ""))

    def test_each_crate_is_checked_as_it_stands_and_with_each_edit(self):
        status, said = self.run_main()
        self.assertEqual(status, 0)
        edits = ["low/at-most: refused", "low/turned: refused", "high/above: refused"]
        self.assertEqual(said, [*edits, "3 refused, 0 let through"])
        low, high = FILES["crates/low/src/lib.rt"], FILES["crates/high/src/lib.rt"]
        turned = [text.replace("<", "<=") for text in (low, high)]
        tried = [("low", low), ("low", turned[0]), ("low", turned[0])]
        self.assertEqual(self.checks, [*tried, ("high", high), ("high", turned[1])])

    def test_an_edit_of_a_function_is_tried_by_that_function(self):
        self.add(f"# only: less\n{ONE}", "above", "high")
        self.answers["a <= b\n", "less"] = 1, "fn high::less: not proved\nonly=1 proved=0\n"
        self.assertEqual(self.run_main("high"), (0, ["high/above: refused", "1 refused, 0 let through"]))
        self.assertEqual(self.checks, [("high", "a < b\n", "less"), ("high", "a <= b\n", "less")])

    def test_where_the_function_does_not_refuse_it_the_crate_is_asked(self):
        self.add(f"# only: less\n{ONE}", "above", "high")
        self.answers["a <= b\n", "less"] = 0, "only=1 proved=1\n"
        self.assertEqual(self.run_main("high"), (0, ["high/above: refused", "1 refused, 0 let through"]))
        self.assertEqual(self.checks[2:], [("high", "a < b\n"), ("high", "a <= b\n")])

    def test_where_there_is_no_such_function_the_crate_is_asked(self):
        self.add(f"# only: less\n{ONE}", "above", "high")
        self.answers["a < b\n", "less"] = 2, "rattle: error: `high` has no function `less`\n"
        status, said = self.run_main("high")
        self.assertEqual((status, said[-1]), (0, "1 refused, 0 let through"))
        self.assertEqual(self.checks[1:], [("high", "a < b\n"), ("high", "a <= b\n")])

    def test_the_copy_has_what_was_kept_below_and_no_git(self):
        self.run_main("high")
        self.assertIn("crates/low/out/kept", self.files)
        self.assertNotIn("crates/other/out/kept", self.files)
        self.assertNotIn(".git/HEAD", self.files)

    def test_the_repository_stays_as_it_is(self):
        self.run_main()
        kept = {it.relative_to(self.root).as_posix() for it in self.root.rglob("*") if it.is_file()}
        self.assertEqual(kept, FILES.keys())

    def test_one_that_is_let_through(self):
        self.add("file: src/lib.rt\nold: Some(x)\nnew: None\n", "turned")
        self.answers["a < b\nNone\nSome(y)\n"] = 0, "logic=proved\n"
        said = ["low/at-most: refused", "low/turned: LET THROUGH", "1 refused, 1 let through"]
        self.assertEqual(self.run_main("low"), (1, said))

    def test_one_that_does_not_apply_is_not_checked(self):
        self.add("file: src/lib.rt\nold: c\nnew: d\n", "at-most")
        status, said = self.run_main("low")
        self.assertEqual(status, 1)
        self.assertEqual(said[0], "low/at-most: doesn't apply: src/lib.rt has 0 times: c")
        self.assertEqual(said[2], "1 refused, 0 let through, 1 not tried")
        self.assertEqual(len(self.checks), 2)

    def test_a_crate_that_is_not_proved_as_it_stands(self):
        self.answers["a < b\n"] = 1, "no library\n"
        status, said = self.run_main("high")
        self.assertEqual(status, 1)
        self.assertIn("high/above: NOT TRIED: the crate isn't proved as it stands", said)
        self.assertEqual(said[-1], "0 refused, 0 let through, 1 not tried")
        self.assertEqual(len(self.checks), 1)


WRONG = "# A note.\ncrate: low\nprogram: weedle_list\nfile: src/lib.rt\nold: right\nnew: wrong\n"
OF_PROGRAMS = {
    "crates.txt": "low:\nweedle_list: low\n",
    "crates/low/src/lib.rt": "right\n",
    "crates/low/out/kept": "made by rt\n",
    "crates/weedle_list/src/main.rt": "main\n",
    "tests/wrong_programs/turned.edit": WRONG,
    "tests/wrong_programs/proved.edit": WRONG.replace("file:", "build: run\nfile:"),
}
# In the place of rt: it builds a program that prints what the library says, and whether there was something kept.
RT = """#!/bin/sh
said="$(cat ../low/src/lib.rt)$(test -f ../low/out/kept && echo ", kept")"
build() { printf '#!/bin/sh\\necho "%s"\\n' "$said" > "$1"; chmod +x "$1"; }
case $1 in
try) [ "$said" = broken ] && exit 1
     mkdir -p "$TMPDIR/a/b"; build "$TMPDIR/a/b/program"; sleep 0.3; rm -r "$TMPDIR/a"; echo "cases=$(ls "$3" | wc -l) ended" >&2 ;;
run) mkdir -p out; build out/weedle_list ;;
esac
"""


class Programs(TryEditsTest):
    FILES = OF_PROGRAMS

    def setUp(self):
        super().setUp()
        self.seen = []
        self.put_command("../bin/rt", RT)

    def tried(self, *words, found=(0, 3)):
        """The status, and the lines that are printed, where the runs come to this."""
        def failures_in(program, name, _):
            self.seen.append((name, subprocess.check_output([program], text=True).strip()))
            return found
        path = mock.patch.dict(os.environ, {"PATH": f"{self.root.parent}/bin:{os.environ['PATH']}"})
        library = mock.patch.object(wrong_programs.memory, "built_library", lambda room: "")
        with path, library, mock.patch.object(wrong_programs, "failures_in", failures_in):
            return self.run_main("--programs", *words)

    def test_one_that_is_found(self):
        said = ["turned: found by 2 of 3", "1 found, 0 let through"]
        self.assertEqual(self.tried("turned", found=(2, 3)), (0, said))
        self.assertEqual(self.seen, [("weedle_list", "wrong")])

    def test_one_that_is_proved_keeps_what_was(self):
        said = ["proved: LET THROUGH: by all 3", "0 found, 1 let through"]
        self.assertEqual(self.tried("proved"), (1, said))
        self.assertEqual(self.seen, [("weedle_list", "wrong, kept")])

    def test_all_and_the_repository_stays(self):
        self.assertEqual(self.tried(found=(1, 3))[1][-1], "2 found, 0 let through")
        self.assertEqual((self.root / "crates/low/src/lib.rt").read_text(), "right\n")
        self.assertFalse((self.root / "crates/weedle_list/out").exists())

    def test_one_that_is_not_built(self):
        self.put({"tests/wrong_programs/broken.edit": WRONG.replace("new: wrong", "new: broken")})
        status, lines = self.tried("broken")
        self.assertEqual((status, lines[-1]), (1, "0 found, 0 let through, 1 not tried"))
        self.assertIn("broken: NOT TRIED: rt try gave no program", lines[0])

    def test_one_that_does_not_apply(self):
        self.assertEqual(self.tried("--check"), (0, ["2 apply, 0 don't"]))
        self.put({"tests/wrong_programs/stale.edit": WRONG.replace("old: right", "old: left")})
        said = ["stale: doesn't apply: src/lib.rt has 0 times: left", "0 found, 0 let through, 1 not tried"]
        self.assertEqual(self.tried("stale"), (1, said))
        self.assertEqual(self.tried("--check"), (1, [said[0], "2 apply, 1 don't"]))
        self.put({"tests/wrong_programs/stale.edit": WRONG.replace("crate: low", "crate: no")})
        self.assertIn("isn't in crates.txt", self.tried("--check")[1][0])
        self.assertEqual(self.tried("no"), (2, ["try_edits: there is no tests/wrong_programs/no.edit"]))

    def found(self, *stages):
        with contextlib.ExitStack() as stack:
            for name, found in zip(("failing_runs", "failing_memory", "failing_texts"), stages):
                stack.enter_context(mock.patch.object(wrong_programs, name, lambda *_, found=found: found))
            return wrong_programs.failures_in("p", "p", "")

    def test_the_formatter_is_run_by_hand(self):
        self.patch(wrong_programs, all_runs=lambda: ["a", "b"], failures_of=lambda program, found: [program, None])
        self.assertEqual(wrong_programs.failing_texts("p", "weedle_format"), [True, False])

    def test_the_first_runs_that_find_it_count(self):
        self.assertEqual(self.found([False, True], [True], [True]), (1, 2))
        self.assertEqual(self.found([False, False], [True], [True]), (1, 1))
        self.assertEqual(self.found([False, False], [False], [True, True]), (2, 2))
        self.assertEqual(self.found([False, False], [False], []), (0, 3))


class LibraryTest(unittest.TestCase):
    """The library for C: its tests in C say whether a wrong body is found."""

    def test_the_tests_in_c_find_one(self):
        with mock.patch.object(wrong_programs.memory, "built_library", lambda room: ""), \
             mock.patch.object(wrong_programs, "built_by_lib", lambda crate, room: room / "libweedle.a"), \
             mock.patch.object(wrong_programs, "failing_tests", lambda archive, room: [True, False, False]):
            self.assertEqual(wrong_programs.Runs(Path("room")).failures_of(Path("crates/weedle_c"), True), (1, 3))

    def test_a_test_that_fails_and_one_that_ends_its_program(self):
        def run(words, **_):
            is_weedle = str(words[0]).endswith("test_weedle")
            said = "  a call: at most 3 bytes\nroom: ok\nhints: FAILED\n1 passed, 1 failed\n" if is_weedle else "parts: ok\n"
            return subprocess.CompletedProcess(words, 1 if is_weedle else -11, said, "")

        with mock.patch.object(wrong_programs.subprocess, "run", run):
            found = wrong_programs.failing_tests(Path("libweedle.a"), Path("room"))
        self.assertEqual(found, [False, True, *[False, True] * 3])

    def test_a_library_that_is_not_proved(self):
        with tempfile.TemporaryDirectory() as folder, self.assertRaises(wrong_programs.NotBuilt):
            refused = subprocess.CompletedProcess([], 1, "logic=not-proved", "")
            with mock.patch.object(wrong_programs.subprocess, "run", lambda words, **_: refused):
                wrong_programs.built_by_lib(Path(folder, "weedle_c"), Path(folder))
