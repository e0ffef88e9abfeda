"""Runs the texts of tests/ through the Rust package, and compares the values with what is wanted.

    python3 tools/run rust PROGRAM [FOLDER..] [--real FOLDER]

PROGRAM is that of compare/, which reads by weedle2, built over the package in weedle2's place:

    cargo build --release --config 'patch.crates-io.weedle2.path="../rust"'

in compare/. rust/run_tests.sh builds and runs it so. A FOLDER is one of tests/, as random; without one all are
run, but for `real` where --real doesn't name the folder of the real files: of these the sums are compared.

Of a text that is read whole the kinds, the names and the `Debug` texts of all definitions have to be those that
are wanted, and of one that is refused the byte at which the unread rest begins.
"""

import tempfile

from measure.compare_with_weedle2 import TOGETHER, Weedle2, in_files
from run.report import compared
from shared.case_files import cases_of, compact, folders
from shared.crates import Unfit
from shared.tree_json import NoTree, plain
from write.make_cases import sum_of, texts_of_real

REAL = "real"


def wanted_of(case):
    """What has to be answered of a case."""
    wanted = case.wanted
    if not case.is_read:
        return {"lines": [f"unread at byte {wanted['rest']}"]}
    if case.text is None:
        return {name: wanted[name] for name in ("sum of list", "sum of value")}
    values = wanted["value"]
    return {"lines": [*wanted["list"], f"definitions {len(values)}"], "value": values}


def came_of(answer, is_real):
    """What was answered, in the same form."""
    if answer.values is None:
        return {"lines": answer.lines}
    values = [plain(it) for it in answer.values]
    if is_real:
        listed = answer.lines[:-1]
        return {"sum of list": sum_of(compact(listed)), "sum of value": sum_of(compact(values))}
    return {"lines": answer.lines, "value": values}


def failures_of(program, cases, texts):
    """A failure, or None, for each case."""
    for start in range(0, len(cases), TOGETHER):
        some, given = cases[start:start + TOGETHER], texts[start:start + TOGETHER]
        with tempfile.TemporaryDirectory() as room:
            answers = program.answers(in_files(given, room))
        for case, text, answer in zip(some, given, answers, strict=True):
            yield compared(text, wanted_of(case), came_of(answer, case.text is None))


def texts_in(folder, cases, real):
    """The texts of the cases of a folder."""
    if folder != REAL:
        return [case.text for case in cases]
    named = texts_of_real(real)
    if {case.name for case in cases} - named.keys():
        raise Unfit(f"{real} hasn't all of the real files")
    return [named[case.name] for case in cases]


def add_arguments(parser):
    parser.add_argument("program", metavar="PROGRAM", help="the program of compare/, built over the package")
    parser.add_argument("folders", nargs="*", metavar="FOLDER", help="a folder of tests/, as random")
    parser.add_argument("--real", metavar="FOLDER", help="the folder of the real files")


def run(wanted, report):
    known = [it for it in folders() if it != REAL or wanted.real]
    chosen = wanted.folders or known
    if set(chosen) - set(known):
        raise Unfit(f"no folder {' or '.join(sorted(set(chosen) - set(known)))} can be run")
    program = Weedle2(wanted.program)
    for folder in chosen:
        cases = cases_of(folder)
        try:
            failures = list(failures_of(program, cases, texts_in(folder, cases, wanted.real)))
        except NoTree as why:
            raise Unfit(f"{folder}: {why}") from why
        report.add(folder, len(cases), failures)
