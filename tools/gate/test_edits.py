"""Tests edits.py over a made-up rt."""

import types
import unittest
from pathlib import Path

from gate import edits as gate_edits
from shared.test_support import Room

PROVED = "fn low::less: proved\nonly=1 proved=1\n"
REFUSED = "fn low::less: not proved\nonly=1 proved=0\n"
WHOLE = "fn low::less: not proved\nlogic=not-proved\n"
TASKS = [("low", "proof"), ("low", "tests")]


class Kept:
    """What earlier runs kept, in a dictionary."""

    def __init__(self):
        self.texts = {}

    def key(self, crate):
        return crate.name

    def of_edit(self, edit, own):
        return f"{own} {Path(edit).name}"

    def tried(self, name):
        return self.texts.get(name)

    def keep_tried(self, name, kind, text):
        self.texts[name] = kind, text

    def is_untouched(self, crate):
        return True


class Rt:
    """A command that says of each check what `answers` has: by the edit's name, or `base`, and whether it is of some
    functions."""

    UNSURE, REFUSED, MISSED, SETTLED = "unsure", "refused", "missed", ("refused", "bad")
    Kept = Kept

    def __init__(self, answers):
        self.answers, self.checks, self.said = answers, [], []
        self.checked = lambda crate, texts, flags, kept: self.check(crate, texts, flags, kept)
        self.add_edits = lambda tasks, crate, edits, first, waits, is_well, kept, start=None, in_ci=True: "rt's own"
        self.need, self.say = lambda crate: 10, self.said.append

    def check(self, crate, texts, flags, kept):
        of = "functions" if "--only" in flags else "crate"
        self.checks.append((*texts, of) if texts else ("base", of))
        said = self.answers[self.checks[-1]]
        return types.SimpleNamespace(returncode=0 if said == PROVED else 1, stdout=said)

    def must_fail(self, crate, edit, flags, kept=None):
        ran = self.checked(crate, [Path(edit).stem], flags, kept)
        is_refused = ran.stdout.splitlines()[-1].startswith("logic=not-proved")
        return ("refused" if is_refused else "missed"), f"{Path(edit).stem}: {ran.returncode}"


FUNCTIONS = {("base", "functions"): PROVED, ("one", "functions"): REFUSED, ("two", "functions"): REFUSED}


class Edits:
    """A crate with two edits of a function, as both ways of rt try them."""

    FILES = {f"{name}.edit": "# only: less\nfile: src/lib.rt\nold: <\nnew: <=\n" for name in ("one", "two")}

    def setUp(self):
        super().setUp()
        self.edits = [self.root / name for name in self.FILES]
        self.crate = types.SimpleNamespace(name="low", count=lambda pattern: 7)
        self.kept = Kept()

    def test_each_is_tried_by_its_function(self):
        self.assertEqual(self.run_all(FUNCTIONS)[:2], (["refused", "refused"], [*FUNCTIONS]))

    def test_one_that_its_function_lets_through_is_tried_over_the_crate(self):
        for said, kind in ((WHOLE, "refused"), (PROVED, "missed")):
            answers = FUNCTIONS | {("one", "functions"): PROVED, ("one", "crate"): said}
            kinds, checks = self.run_all(answers)[:2]
            self.assertEqual(kinds, [kind, "refused"])
            self.assertIn(("one", "crate"), checks)
            self.assertNotIn(("two", "crate"), checks)
            self.kept = Kept()

    def test_where_the_function_is_not_proved_as_it_stands_all_are_tried_over_the_crate(self):
        answers = {("base", "functions"): REFUSED, ("one", "crate"): WHOLE, ("two", "crate"): PROVED}
        self.assertEqual(self.run_all(answers)[:2], (["refused", "missed"], [*answers]))


class Tried(Edits, Room):
    def run_all(self, answers):
        """What each edit comes to, what rt was asked to check, and how many were known before."""
        rt, tasks = Rt(answers), {}
        gate_edits.replace(rt)
        results, known = rt.add_edits(
            tasks, self.crate, self.edits, [("under", "proof")], TASKS, lambda given, new=0: True, self.kept
        )
        given = {("under", "proof"): True} | dict.fromkeys(TASKS, True)
        for key, (waits, _, _, call) in tasks.items():
            self.assertTrue(all(it in given for it in waits))
            given[key] = call(given, 1)
        return [kind for kind, _ in results(given)], rt.checks, len(known())

    def test_what_was_refused_is_kept_and_not_tried_again(self):
        self.assertEqual(self.run_all(FUNCTIONS)[2], 0)
        self.assertEqual(self.run_all({}), (["refused", "refused"], [], 2))

    def test_a_crate_with_an_edit_without_a_function_is_left_to_rt(self):
        self.edits[1].write_text("file: src/lib.rt\nold: <\nnew: <=\n")
        rt = Rt({})
        gate_edits.replace(rt)
        self.assertEqual(rt.add_edits({}, self.crate, self.edits, [], TASKS, None, self.kept), "rt's own")

    def test_another_rt_is_left_as_it_is(self):
        rt = types.SimpleNamespace(add_edits=lambda tasks: None)
        before = rt.add_edits
        gate_edits.replace(rt)
        self.assertIs(rt.add_edits, before)


class OlderRt(Rt):
    """A command that tries the edits of a crate in one call, and says whether each was refused."""

    def __init__(self, answers):
        super().__init__(answers)
        self.must_fail_all = lambda crate, edits, flags: "rt's own"

    def must_fail(self, crate, edit, flags, kept=None):
        kind, said = super().must_fail(crate, edit, flags, kept)
        return kind == "refused", said


class TriedAtOnce(Edits, Room):
    def run_all(self, answers):
        """What each edit comes to, or rt's own answer, and what rt was asked to check."""
        rt = OlderRt(answers)
        gate_edits.replace(rt)
        found = rt.must_fail_all(self.crate, self.edits, [])
        return found if isinstance(found, str) else ["refused" if it else "missed" for it, _ in found], rt.checks

    def test_a_crate_with_an_edit_without_a_function_is_left_to_rt(self):
        self.edits[1].write_text("file: src/lib.rt\nold: <\nnew: <=\n")
        self.assertEqual(self.run_all({}), ("rt's own", []))


class Verdicts(unittest.TestCase):
    def test_only_a_check_that_came_to_its_end_refuses(self):
        self.assertTrue(gate_edits.is_refused(REFUSED))
        for said in (PROVED, WHOLE, "", "rattle: error: `low` has no function `less`\n"):
            self.assertFalse(gate_edits.is_refused(said))
