"""Tries wrong bodies by hand: the prover has to refuse each, or a run of tests/ to find it.

    python3 tools/look/try_edits.py [--check] [CRATE..]
    python3 tools/look/try_edits.py --programs [--check] [NAME..]

Those for the prover are must-fail/by-hand/CRATE/*.edit, of all crates or of those that are named.
An edit has a line `file: src/lib.rt`, and then pairs of lines `old: TEXT` and `new: TEXT`, each
TEXT one line; further pairs apply to what the earlier ones made. A line that begins with `#` says
something to the reader, and `# only: PATH` names the function that the edit turns, or the module of
a method, as `rt check --only` takes it.

Those that no contract refuses are tests/wrong_programs/*.edit, with two lines more, and a third
where it is to be proved:

    crate: NAME      whose files it changes
    program: NAME    which program is built with it; weedle_c is the library for C (wrong_programs.py)
    build: run       that `rt run` proves and builds it, for minutes; else `rt try` does, with checks

First it looks whether each old text stands in its file exactly once; with --check that is all. Then
it works in a copy of the repository, with what `rt check` kept. The functions of a crate's edits
are checked as they stand, and then with each edit, by `rt check --only`: for half a minute or some
minutes. Where that doesn't refuse an edit, the whole crate is checked with it.

It prints a line for each edit:

    CRATE/NAME: refused             or of a program, NAME: found by N of M
    CRATE/NAME: LET THROUGH         the crate is still proved with it, or all runs passed
    CRATE/NAME: doesn't apply       with the reason
    CRATE/NAME: NOT TRIED           with the reason

Behind `refused` stands in brackets where a proof only misses a name that the edit took away, which
says little of a contract. The last line is `N refused, M let through`, or `N found, ..`, and how
many weren't tried; with --check `N apply, M don't`.

The status is 0 where each edit was refused or found, or applies; 1 where one wasn't or doesn't; 2
where the arguments are wrong.
"""

import contextlib
import re
import shutil
import subprocess
import sys
import tempfile
from collections import Counter
from pathlib import Path

if not __package__:
    sys.path[0] = str(Path(__file__).resolve().parent.parent)

from gate.edits import functions_of, is_refused, words_of
from shared.command_line import ended, parser_of
from shared.crates import PARTS, TOP, Unfit, closure, read_lines

BY_HAND, PROGRAMS = Path("must-fail", "by-hand"), Path("tests", "wrong_programs")
# What says of a program's edit what is built.
HEADS = ("crate", "program", "build")
REFUSED, FOUND, LET_THROUGH, UNFIT, UNTRIED = "refused", "found", "LET THROUGH", "doesn't apply", "NOT TRIED"
# How the last line of a check begins that the prover refused.
NOT_PROVED = "logic=not-proved"
COMPLAINT = re.compile(r"(note: |(\./)?\S+:\d+:\d+: error)")
# What is said where a text can't be read, so that no contract was tried.
UNREAD = re.compile(
    r"(\./)?(src|specs)/\S+:\d+:\d+: error: .*"
    r"(is not in scope|has no field|is no name|operand is missing|expected the end|cannot continue)"
)
# rt's own hints, which stand behind the last line of a check.
HINTS = re.compile(r"(^rt: .*\n)+\Z", re.MULTILINE)
# What is said of a proof that names what an edit took away.
NAME_GONE = re.compile(r"(\./)?proofs/.*(has no field|is not in scope|has no `|was not admitted)")


class Misfit(Exception):
    """Why an edit doesn't apply."""


class Edit:
    """A wrong body: its file and text, its crate, its own name, as `low/no-end`, and which program is built with it."""

    def __init__(self, file):
        rows = file.read_text(encoding="utf-8").splitlines()
        heads = dict(row.split(": ", 1) for row in rows if row.partition(":")[0] in HEADS)
        self.file, self.crate = file, heads.get("crate", file.parent.name)
        self.text = "\n".join(row for row in rows if row.partition(":")[0] not in HEADS)
        self.program, self.is_proved = heads.get("program"), heads.get("build") == "run"
        self.name = file.stem if self.program else f"{self.crate}/{file.stem}"

    def misfit(self, root):
        """Why it doesn't apply to its crate as it stands, or nothing."""
        if not {self.crate, self.program or self.crate} <= read_lines(root).keys():
            return "its crate or its program isn't in crates.txt"
        return misfit_of(self.text, Path(root, "crates", self.crate))


class Outcome:
    """What came of an edit, with the reason or the reservation."""

    def __init__(self, kind, why=""):
        self.kind, self.why = kind, why

    def __str__(self):
        if not self.why:
            return self.kind
        return {REFUSED: f"{self.kind} ({self.why})", FOUND: f"{self.kind} by {self.why}"}.get(
            self.kind, f"{self.kind}: {self.why}"
        )


def edited(text, crate):
    """The texts that an edit of this text makes of the files of the crate in this folder."""
    path, old, texts, before = None, None, {}, {}
    for row in text.splitlines():
        word, _, rest = row.partition(":")
        rest = rest.removeprefix(" ")
        if word == "file":
            path = rest.strip()
            if path.split("/")[0] not in PARTS or not (crate / path).is_file():
                raise Misfit(f"there is no file {path}")
            if path not in texts:
                before[path] = texts[path] = (crate / path).read_text(encoding="utf-8")
        elif word == "old":
            old = rest
        elif word == "new":
            if not path or not old:
                raise Misfit("a `new:` has no `file:` or no `old:` above it")
            if texts[path].count(old) != 1:
                raise Misfit(f"{path} has {texts[path].count(old)} times: {old}")
            texts[path], old = texts[path].replace(old, rest), None
        elif row.strip() and not row.startswith("#"):
            raise Misfit(f"a line isn't read: {row}")
    if texts == before:
        raise Misfit("it changes nothing")
    return texts


def misfit_of(text, crate):
    """Why an edit of this text doesn't apply to the crate in this folder, or nothing."""
    try:
        edited(text, crate)
    except Misfit as why:
        return str(why)
    return ""


def find_edits(root, names, is_programs=False):
    """The edits of these crates, in the order of crates.txt and their names, or the programs' of these names; or all."""
    if is_programs:
        found = {file.stem: Edit(file) for file in sorted((root / PROGRAMS).glob("*.edit"))}
    else:
        found = {
            name: [Edit(file) for file in sorted((root / BY_HAND / name).glob("*.edit"))] for name in read_lines(root)
        }
    for name in names:
        if name not in found:
            raise Unfit(f"there is no {PROGRAMS}/{name}.edit" if is_programs else f"there is no crate {name}")
    wanted = [it for name, it in found.items() if not names or name in names]
    return wanted if is_programs else [edit for edits in wanted for edit in edits]


@contextlib.contextmanager
def applied(edit, root):
    """The repository with an edit, and afterwards as it was."""
    folder = Path(root, "crates", edit.crate)
    texts = edited(edit.text, folder)
    before = {path: (folder / path).read_text(encoding="utf-8") for path in texts}
    try:
        for path, text in texts.items():
            (folder / path).write_text(text, encoding="utf-8")
        yield folder
    finally:
        for path, text in before.items():
            (folder / path).write_text(text, encoding="utf-8")


def copy_repository(root, to, names):
    """Copies the repository, with what was kept of these crates and of those below them."""
    kept = set(closure(read_lines(root), names))

    def left_out(folder, found):
        is_kept = Path(folder).parent.name == "crates" and Path(folder).name in kept
        return {".git", "__pycache__", *([] if is_kept else ["out"])} & {*found}

    shutil.copytree(root, to, symlinks=True, ignore=left_out)


def run_rt(crate, functions):
    """The status of `rt check` in the folder of a crate, of these functions or of all, and what it says."""
    how = {"stdin": subprocess.DEVNULL, "stdout": subprocess.PIPE, "stderr": subprocess.STDOUT}
    words = ["rt", "check", *words_of(functions)]
    ran = subprocess.run(words, cwd=crate, text=True, errors="replace", **how)
    return ran.returncode, HINTS.sub("", ran.stdout)


def outcome_of(status, said):
    """What came of an edit, by the status of the check with it and what that said."""
    rows = said.splitlines()
    told = [row for row in rows if COMPLAINT.match(row)]
    unread = [row for row in told if UNREAD.match(row)]
    if status == 0:
        return Outcome(LET_THROUGH)
    if unread:
        return Outcome(UNTRIED, f"the prover can't read it: {unread[0]}")
    if not is_refused(said) and not any(row.startswith(NOT_PROVED) for row in rows):
        return Outcome(UNTRIED, f"it didn't reach the prover: {(told or rows or ['no word'])[0]}")
    if told and all(map(NAME_GONE.match, told)):
        return Outcome(REFUSED, "only by a name that is gone")
    return Outcome(REFUSED)


def try_one(copy, edit, functions=()):
    """What came of one edit, by these functions or by the whole crate."""
    with applied(edit, copy) as folder:
        return outcome_of(*run_rt(folder, functions))


def is_proved(crate, functions=()):
    """Whether these functions of a crate, or all, are proved as they stand."""
    status, said = run_rt(crate, functions)
    if status:
        print(said, end="", file=sys.stderr)
    return not status


def by_functions(copy, folder, edits):
    """Of each edit that its functions alone refuse, what came of it."""
    functions = {edit: names for edit in edits if (names := functions_of(edit.file))}
    every = list(dict.fromkeys(it for names in functions.values() for it in names))
    if not every or not is_proved(folder, every):
        return
    for edit, names in functions.items():
        outcome = try_one(copy, edit, names)
        if outcome.kind == REFUSED:
            yield edit, outcome


def by_prover(copy, edits):
    """Each edit with what came of it, crate by crate: those that no function refused come last."""
    for crate in dict.fromkeys(edit.crate for edit in edits):
        own, folder, refused = [edit for edit in edits if edit.crate == crate], copy / "crates" / crate, set()
        for edit, outcome in by_functions(copy, folder, own):
            refused.add(edit)
            yield edit, outcome
        left = [edit for edit in own if edit not in refused]
        proved = not left or is_proved(folder)
        for edit in left:
            yield edit, try_one(copy, edit) if proved else Outcome(UNTRIED, "the crate isn't proved as it stands")


def by_runs(copy, edits):
    """Each edit of a program with what came of it."""
    # It brings in what runs programs, which --check doesn't want.
    from look.wrong_programs import NotBuilt, Runs
    runs = Runs(copy.parent)
    for edit in edits:
        try:
            with applied(edit, copy):
                failed, count = runs.failures_of(copy / "crates" / edit.program, edit.is_proved)
        except (NotBuilt, subprocess.TimeoutExpired) as why:
            yield edit, Outcome(UNTRIED, str(why))
        else:
            yield edit, Outcome(FOUND, f"{failed} of {count}") if failed else Outcome(LET_THROUGH, f"by all {count}")


def misfits(root, edits):
    """Each edit that doesn't apply, with the reason."""
    found = ((edit, edit.misfit(root)) for edit in edits)
    return {edit: Outcome(UNFIT, why) for edit, why in found if why}


def outcomes(root, edits):
    """Each edit, all of the prover or all of programs, with what came of it: those that don't apply come first."""
    unfit = misfits(root, edits)
    yield from unfit.items()
    fit = [edit for edit in edits if edit not in unfit]
    if fit:
        with tempfile.TemporaryDirectory(prefix="try-edits-") as room:
            copy = Path(room, "repository")
            copy_repository(root, copy, [edit.program or edit.crate for edit in fit if edit.is_proved or not edit.program])
            yield from (by_runs if fit[0].program else by_prover)(copy, fit)


def told(found):
    """Prints a line for each edit with what came of it. How many came to each kind."""
    counts = Counter()
    for edit, outcome in found:
        print(f"{edit.name}: {outcome}", flush=True)
        counts[outcome.kind] += 1
    return counts


def main(words=None, root=TOP):
    parser = parser_of(__doc__)
    parser.add_argument("--check", action="store_true", help="only look whether each applies")
    parser.add_argument("--programs", action="store_true", help="those that no contract refuses")
    parser.add_argument("names", metavar="NAME", nargs="*", help="a crate, or of programs an edit; else all")
    given = parser.parse_args(words)
    edits = find_edits(root, given.names, given.programs)
    if given.check:
        unfit = told(misfits(root, edits).items())[UNFIT]
        print(f"{len(edits) - unfit} apply, {unfit} don't")
        return 1 if unfit else 0
    if not shutil.which("rt"):
        raise Unfit("the toolchain's command rt isn't on PATH")
    counts = told(outcomes(root, edits))
    kind, untried = FOUND if given.programs else REFUSED, counts[UNFIT] + counts[UNTRIED]
    print(f"{counts[kind]} {kind}, {counts[LET_THROUGH]} let through" + f", {untried} not tried" * bool(untried))
    return 0 if counts[kind] == len(edits) else 1


if __name__ == "__main__":
    sys.exit(ended(main))
