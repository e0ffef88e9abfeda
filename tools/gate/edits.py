"""How tools/gate/ci.py tries wrong bodies: by the function that each turns, and not by a proof of the whole crate.

An edit has a line `# only: PATH` where it is tried so. PATH names a function as `rattle check --only` takes it, and
the edited crate is checked for that function and what it calls alone. Where that isn't proved, the crate isn't
either. First the same functions are checked in the crate as it stands, once for all edits of a crate. Where one isn't
proved there, or can't be found, and where an edit isn't refused, `rt` tries the edit over the whole crate as any other.
"""

import functools
import inspect
import re
from pathlib import Path

ONLY = re.compile(r"^# only: (\S+)$", re.MULTILINE)
# How the output of a check of some functions ends.
VERDICT = re.compile(r"^only=(\d+) proved=(\d+)\n*\Z", re.MULTILINE)
# What it ends with where a check of a whole crate refuses it.
NOT_PROVED = "logic=not-proved"
# What of the memory of a whole check one of some functions takes.
PART = 0.7


def functions_of(edit):
    """The functions that an edit is tried by."""
    return ONLY.findall(Path(edit).read_text(encoding="utf-8", errors="replace"))


def words_of(functions):
    """The words behind `rattle check` that limit it to these functions."""
    return [word for path in functions for word in ("--only", path)]


def is_refused(said):
    """Whether a check of some functions came to its end, and not each of them is proved."""
    verdict = VERDICT.search(said)
    return verdict is not None and int(verdict[2]) < int(verdict[1])


def with_verdict(checked):
    """rt's check of an edited crate. Its last line is that of a whole check where a function isn't proved."""

    @functools.wraps(checked)
    def call(crate, texts, flags, kept):
        ran = checked(crate, texts, flags, kept)
        if "--only" in flags and ran.returncode == 1 and is_refused(ran.stdout):
            ran.stdout = f"{ran.stdout.rstrip()}\n{NOT_PROVED}\n"
        return ran

    return call


class Trial:
    """The wrong bodies of a crate that are tried by their functions.

    `rt` is the command as a module, `kept` what it keeps of earlier runs, and `is_well` says whether crate and tests
    are proved."""

    def __init__(self, rt, crate, edits, is_well, kept):
        self.rt, self.crate, self.edits, self.is_well, self.kept = rt, crate, edits, is_well, kept
        self.earlier = None

    def name(self, number):
        """Under which name it is kept what the edit came to. It isn't rt's own, which stands for a whole check."""
        own = f"{self.kept.key(self.crate)} {' '.join(words_of(functions_of(self.edits[number])))}"
        return self.kept.of_edit(self.edits[number], own)

    def known(self):
        """What those edits came to that an earlier run tried, by their numbers, as it was when first asked for."""
        if self.earlier is None:
            found = {number: self.kept.tried(self.name(number)) for number in range(len(self.edits))}
            self.earlier = {number: it for number, it in found.items() if it}
        return self.earlier

    def begin(self, first, given, jobs):
        """Checks the functions of all edits in the crate as it stands, where one of these has to be tried."""
        if len(self.known()) == len(self.edits):
            return True
        paths = dict.fromkeys(path for edit in self.edits for path in functions_of(edit))
        flags = ["--jobs", str(jobs), *words_of(paths)]
        return all(given[it] for it in first) and self.rt.checked(self.crate, {}, flags, None).returncode == 0

    def try_one(self, given, jobs, number):
        """What an edit comes to, and what is said of it, or nothing where the crate isn't proved."""
        if not self.is_well(given, len(self.edits) - len(self.known())):
            return None
        return self.known().get(number) or self.tried(number, given[self.crate.name, "seed"])

    def tried(self, number, is_sound):
        rt, edit, flags = self.rt, self.edits[number], ["--jobs", "1"]
        kind, said = rt.UNSURE, ""
        if is_sound:
            kind, said = rt.must_fail(self.crate, edit, [*flags, *words_of(functions_of(edit))])
        if kind != rt.REFUSED:
            name = f"{self.crate.name}/{Path(edit).name}"
            rt.say(f"{name}: not refused by its functions alone, so tried over the whole crate")
            kind, said = rt.must_fail(self.crate, edit, flags)
        if kind in rt.SETTLED and self.kept.is_untouched(self.crate):
            self.kept.keep_tried(self.name(number), kind, said)
        return kind, said

    def add_to(self, tasks, first, waits):
        """Adds a task for the check of the crate as it stands, and one for each edit."""
        name, lines = self.crate.name, self.crate.count(rb"\n")
        needs = PART * self.rt.need(self.crate)
        tasks[name, "seed"] = (first, 0, needs, functools.partial(self.begin, first))
        for number in range(len(self.edits)):
            call = functools.partial(self.try_one, number=number)
            tasks[name, "edits", number] = ([*waits, (name, "seed")], lines, needs, call)

    def results(self, given):
        return [given[self.crate.name, "edits", number] for number in range(len(self.edits))]


def takes(rt, **more):
    """Whether these calls of rt have these parameters, and those that try an edit what is known here."""
    edits = {"checked": ["crate", "texts", "flags", "kept"], "must_fail": ["crate", "edit", "flags", "kept"]}
    wanted = edits | more
    try:
        return wanted == {name: [*inspect.signature(getattr(rt, name)).parameters] for name in wanted}
    except (AttributeError, TypeError):
        return False


def can_replace(rt):
    """Whether rt tries edits as is known here."""
    try:
        calls = [rt.Kept.key, rt.Kept.of_edit, rt.Kept.tried, rt.Kept.keep_tried, rt.Kept.is_untouched, rt.need, rt.say]
        kinds = [rt.UNSURE, rt.REFUSED, *rt.SETTLED]
    except AttributeError:
        return False
    add_edits = ["tasks", "crate", "edits", "first", "waits", "is_well", "kept", "start", "in_ci"]
    return takes(rt, add_edits=add_edits) and all(map(callable, calls)) and len(kinds) > 2


def tries_at_once(rt):
    """Whether rt tries the edits of a crate in one call and keeps nothing of earlier runs, as older kits do."""
    return takes(rt, must_fail_all=["crate", "edits", "flags"])


def all_by_functions(rt):
    """What stands in the place of rt's `must_fail_all`: whether each edit is refused, and what is said of it."""
    by_crate = rt.must_fail_all

    def tried(crate, edit, flags, is_sound):
        if is_sound:
            refused, said = rt.must_fail(crate, edit, [*flags, *words_of(functions_of(edit))])
            if refused:
                return refused, said
        rt.say(f"{crate.name}/{Path(edit).name}: not refused by its functions alone, so tried over the whole crate")
        return rt.must_fail(crate, edit, flags)

    @functools.wraps(by_crate)
    def must_fail_all(crate, edits, flags):
        if not edits or not all(map(functions_of, edits)):
            return by_crate(crate, edits, flags)
        paths = dict.fromkeys(path for edit in edits for path in functions_of(edit))
        is_sound = rt.checked(crate, {}, [*flags, *words_of(paths)], None).returncode == 0
        return [tried(crate, edit, flags, is_sound) for edit in edits]

    return must_fail_all


def replace(rt):
    """Has rt try the edits of a crate by their functions, where each of them names one."""
    if tries_at_once(rt):
        rt.checked = with_verdict(rt.checked)
        rt.must_fail_all = all_by_functions(rt)
    if not can_replace(rt):
        return
    by_crate = rt.add_edits
    rt.checked = with_verdict(rt.checked)

    @functools.wraps(by_crate)
    def add_edits(tasks, crate, edits, first, waits, is_well, kept, start=None, in_ci=True):
        if not in_ci or not edits or not all(map(functions_of, edits)):
            return by_crate(tasks, crate, edits, first, waits, is_well, kept, start, in_ci)
        trial = Trial(rt, crate, edits, is_well, kept)
        trial.add_to(tasks, first, waits)
        return trial.results, trial.known

    rt.add_edits = add_edits
