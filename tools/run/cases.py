"""Runs the cases of tests/ through a built program, and compares what it answers with what is wanted.

    python3 tools/run cases PROGRAM [FOLDER..] [--most BYTES] [--every N] [--real FOLDER]
    python3 tools/run cases --try crates/weedle_check [FOLDER..] [--most BYTES]

PROGRAM is a built weedle_check or weedle_list, which the name of its file says; or a folder, of which all
such programs below it are run (after `rt ci`: crates). With --try it is the crate of weedle_check, which `rt
try` builds and runs, once over all texts. A FOLDER is one of tests/, as random; `runs` is tests/runs.toml.
Without one all are run, but for `real` where no folder of the real files is given by --real, and for `runs`
with --try.

weedle_check reads many files at once: first all texts of a folder, of which it has to say where and why those are
refused that are, and nothing of the others; then with --tree those that are read, of which it has to print the
values, and with --syntax, of which it has to print the nodes that the rows of the grammar give. weedle_list reads
one text a process: each of `tests` and `worked`, and of the other folders each Nth (--every, 10 if left out). With
--most no more texts are taken than have so many bytes, evenly of all folders.
"""

import os
import re
import tempfile
from concurrent.futures import ThreadPoolExecutor
from pathlib import Path

from measure.compare_with_weedle2 import BETWEEN, parts_between, renamed
from rows.dialects import WEEDLE2
from rows.nodes import nodes_of, printed
from run.programs import Built, Tried, built_at, meant, told
from run.report import Failure, compared
from run.todays import line_of, without_line
from run.worked_runs import RUNS, failures_of, runs
from shared.case_files import TESTS, cases_of, compact, folders, numbered
from shared.crates import Unfit
from shared.tree_json import NoTree, definition_of, plain, read

PROGRAMS = CHECK, LIST = ("weedle_check", "weedle_list")
# How many texts a process is given.
TOGETHER = 250
# Of which folders weedle_list reads each text, and of the others each of so many.
LISTED, EVERY = ("tests", "worked"), 10
# What `rt try` is given at most: it keeps no more than 1 MiB of what a program writes.
TRIED_TEXT, TRIED_VALUES = 2_000, 600_000


def said_of(case, name):
    """What weedle_check has to write of a text that is refused."""
    wanted = case.wanted
    if case.is_read:
        return ""
    return f"{name}:{wanted['at']}: {wanted['says']}\n{wanted['shows']}{wanted.get('hint', '')}{line_of(case.text)}"


def check_all(program, cases, room):
    """A failure, or None, for each case: whether it is refused, where and why."""
    names = written(cases, room)
    ended = program.run(["--errors", "1"], names, room)
    refused = sum(not case.is_read for case in cases)
    parts = parts_by_name(ended.stdout.decode(errors="replace"), names, last_line(len(cases), refused))
    if parts is None or ended.stderr or ended.returncode != (1 if refused else 0):
        if len(cases) > 1:
            return [failure for case in cases for failure in check_all(program, [case], room)]
        return [Failure(cases[0].text, said_of(cases[0], names[0]), told(ended))]
    return [compared(case.text, said_of(case, name), parts[name]) for case, name in zip(cases, names)]


def last_line(files, refused):
    """The last line of weedle_check, where each file is read."""
    return f"{files} file{'s' * (files != 1)}, {refused} refused\n"


def written(cases, room):
    """The names of files with the cases' texts."""
    names = [f"{case.name}.webidl" for case in cases]
    for name, case in zip(names, cases):
        (Path(room) / name).write_bytes(case.text.encode())
    return names


def parts_by_name(out, names, last):
    """What is written of each file, each but the last line behind its name; or None where it doesn't end in this line."""
    if not out.endswith(last):
        return None
    parts = dict.fromkeys(names, "")
    found = re.split(r"^(?=(" + "|".join(map(re.escape, names)) + r"):\d+:\d+: )", out[:len(out) - len(last)], flags=re.M)
    for name, part in zip(found[1::2], found[2::2]):
        parts[name] += part
    return None if found[0] else parts


def tree_all(program, cases, room):
    """A failure, or None, for each case: the values and the places of its definitions, or why it is refused."""
    names = written(cases, room)
    (Path(room) / "between").write_text(BETWEEN, encoding="utf-8")
    ended = program.run(["--errors", "1", "--tree"], [word for name in names for word in (name, "between")], room)
    refused = sum(not case.is_read for case in cases)
    *parts, last = parts_between(ended.stdout.decode(errors="replace"))
    is_well = last == last_line(2 * len(cases), refused) and ended.returncode == (1 if refused else 0)
    if not is_well or len(parts) != len(cases) or ended.stderr:
        if len(cases) > 1 and isinstance(program, Built):
            return [failure for case in cases for failure in tree_all(program, [case], room)]
        return [Failure(case.text, trees_of(case), told(ended)) for case in cases]
    return [
        compared(case.text, trees_of(case), trees_in(part)) if case.is_read else compared(case.text, said_of(case, name), part)
        for case, name, part in zip(cases, names, parts)
    ]


def trees_of(case):
    """The places and the values that are wanted of a text that is read."""
    return [{"at": at, "value": value} for at, value in zip(case.wanted["at"], case.wanted["value"])]


def trees_in(part):
    """The places and the values in the lines of a text; a line that holds none stands as it is."""
    trees = []
    for line in part.split("\n")[:-1]:
        try:
            trees.append({"at": line.partition(" ")[0], "value": plain(renamed(read(definition_of(line) or "")))})
        except NoTree:
            trees.append(line)
    return trees


def syntax_all(program, cases, room, dialect=WEEDLE2):
    """A failure, or None, for each case that is read whole: the nodes of its syntax tree, by the rows."""
    ended = program.run(["--syntax"], written(cases, room), room)
    out, last = ended.stdout.decode(errors="replace"), last_line(len(cases), 0)
    first = f"(?={dialect.start.lower()} )"
    parts = re.split(f"^{first}", out[:len(out) - len(last)], flags=re.M)[1:] if out.endswith(last) else []
    if len(parts) != len(cases) or ended.stderr or ended.returncode:
        if len(cases) > 1:
            return [failure for case in cases for failure in syntax_all(program, [case], room, dialect)]
        return [Failure(cases[0].text, "a syntax tree", told(ended))]
    return [same_nodes(case.text, part, dialect) for case, part in zip(cases, parts)]


def same_nodes(text, part, dialect=WEEDLE2):
    """The first node that differs, if one does."""
    wanted, came = nodes_of(text.encode(), dialect), printed(part.split("\n")[:-1])
    if wanted == came:
        return None
    ends = [it + [None] * (max(map(len, (wanted, came))) - len(it)) for it in (wanted, came)]
    return next(Failure(text, str(one), str(other)) for one, other in zip(*ends) if one != other)


def check_texts(program, cases):
    """The failures of a folder's texts by weedle_check, and how many cases there were."""
    whole = [case for case in cases if case.is_read]
    if isinstance(program, Tried):
        return [it for found in in_rooms(program, [(tree_all, cases)]) for it in found if it], len(cases)
    jobs = [(check_all, part) for part in parts_of(cases)]
    jobs += [(work, part) for work in (tree_all, syntax_all) for part in parts_of(whole)]
    return [failure for found in in_rooms(program, jobs) for failure in found if failure], len(cases) + 2 * len(whole)


def parts_of(cases):
    return [cases[start:start + TOGETHER] for start in range(0, len(cases), TOGETHER)]


def in_rooms(program, jobs):
    """What jobs find, each in a folder of its own, several at once."""
    def work(job):
        with tempfile.TemporaryDirectory() as room:
            return job[0](program, job[1], room)
    with ThreadPoolExecutor(os.cpu_count()) as pool:
        return list(pool.map(work, jobs))


def list_one(program, cases, _):
    """A failure, or None, for each case: the lines of its definitions, and its outline."""
    return [failure for case in cases for failure in (listed(program, case, []), listed(program, case, ["outline"]))]


def listed(program, case, words):
    ended = program.run(words, given=case.text.encode())
    wanted = f"status {int(not case.is_read)}\n" + listing_of(case.wanted, words)
    return compared(case.text, wanted, told(ended))


def listing_of(wanted, words):
    if "rest" in wanted:
        return f"unread at byte {wanted['rest']}\n"
    lines = []
    for title, value in zip(wanted["list"], wanted["value"]):
        lines += [title, *(f"  {line}" for line in docstring_of(value) if words)]
    return "".join(f"{line}\n" for line in [*lines, f"definitions {len(wanted['list'])}"])


def docstring_of(value):
    (fields,) = value.values()
    docstring = fields.get("docstring")
    return docstring["Docstring"].split("\n") if docstring else []


def list_texts(program, cases):
    jobs = [(list_one, [case]) for case in cases]
    return [failure for found in in_rooms(program, jobs) for failure in found if failure], 2 * len(cases)


# The real files, of which sums are kept alone.
def real_texts(program, cases, folder):
    """The failures of real files by weedle_check; the files that aren't the ones that are known fail too."""
    from write.make_cases import files_of, sum_of, without_text
    files = {str(file.relative_to(folder).with_suffix("")).replace("/", "."): file for file in files_of(folder)}
    failures = []
    for case in cases:
        content = files[case.name].read_bytes() if case.name in files else b""
        text = content.decode(errors="replace")
        if sum_of(text) != case.wanted["sum"]:
            failures.append(Failure(case.name, "the file that is known", "another, or none"))
            continue
        came = answer_of_real(program, files[case.name], case.wanted)
        failures += filter(None, [compared(case.name, case.wanted, without_text(text, came))])
    return failures, len(cases)


def answer_of_real(program, file, wanted):
    """What weedle_check answers of a file, as what is wanted of one."""
    ended = program.run(["--errors", "1", "--tree", str(file)])
    *lines, _ = ended.stdout.decode(errors="replace").split("\n")[:-1] or [""]
    lines = without_line("".join(f"{line}\n" for line in lines)).split("\n")[:-1]
    if ended.returncode == 0:
        trees = [tree for tree in trees_in("\n".join([*lines, ""])) if isinstance(tree, dict)]
        return {
            "by": wanted["by"], "list": list(map(title_of, trees)), "at": [it["at"] for it in trees],
            "value": [it["value"] for it in trees],
        }
    at, _, says = (lines or [""])[0].removeprefix(f"{file}:").partition(": ")
    shows, hint = ["".join(f"{line}\n" for line in part) for part in (lines[1:3], lines[3:])]
    said = {"by": wanted["by"], "rest": wanted.get("rest"), "place": wanted.get("place"), "at": at, "says": says, "shows": shows}
    return said | ({"hint": hint} if hint else {})


def title_of(tree):
    """The kind and the name of a definition."""
    from measure.compare_with_weedle2 import TITLES
    ((kind, fields),) = tree["value"].items()
    name = fields.get("identifier") or fields["lhs_identifier"]
    return f"{TITLES[kind]} {name['Identifier']}"


def taken(cases, share):
    """So large a share of cases, evenly of all."""
    return [case for number, case in enumerate(cases) if int((number + 1) * share) > int(number * share)]


def share_of(most, chosen, size):
    """Which share of the texts of these folders has so many bytes together, of their texts or of their values."""
    if most is None:
        return 1
    every = sum(size(case) for cases in chosen.values() for case in cases)
    return min(1, most / every) if every else 1


def run_folder(program, kind, folder, cases, wanted):
    """The failures of a folder, and how many cases it has for the program."""
    if folder == RUNS:
        found = failures_of(program.program, [run for run in runs() if run.program == kind])
        return found, len(found)
    if folder == "real":
        return real_texts(program, cases, wanted.real) if kind == CHECK else ([], 0)
    if kind == CHECK:
        return check_texts(program, cases)
    return list_texts(program, cases if folder in LISTED else cases[::wanted.every])


def together(chosen):
    """The cases of all folders as those of one, by other names: what is only tried is compiled at each call."""
    cases = [(case.text, case.wanted) for found in chosen.values() for case in found]
    return {", ".join(chosen): numbered(cases)}


def run_program(program, kind, wanted, chosen, report):
    """Runs all chosen cases through a program."""
    if isinstance(program, Tried):
        chosen = together(chosen)
    for folder, cases in chosen.items():
        failures, count = run_folder(program, kind, folder, cases, wanted)
        report.add(f"{kind}, {folder}", count, failures)


def programs_meant(path, is_tried):
    """The programs that a path means, each with its kind."""
    if is_tried and Path(path).name == CHECK:
        return [(meant(path, True), CHECK)]
    found = [] if is_tried else built_at(path, PROGRAMS)
    if not found or Path(path).is_dir() and {kind for _, kind in found} != set(PROGRAMS):
        raise Unfit(f"{path} is neither of the built programs, and no folder with both below it")
    return [(Built(program), kind) for program, kind in found]


def chosen_cases(wanted):
    """The cases of the folders that are asked for, by their names."""
    there = [*folders(wanted.tests), RUNS]
    left_out = [] if wanted.real else ["real"]
    names = wanted.folder or [name for name in there if name not in left_out + [RUNS] * wanted.tried]
    for name in names:
        if name not in there:
            raise Unfit(f"tests has no {name}")
        if name in (RUNS, "real") and wanted.tried:
            raise Unfit(f"{name} is run with a program that is built")
        if name == "real" and not wanted.real:
            raise Unfit("real files are run with --real FOLDER alone")
    found = {name: [] if name == RUNS else cases_of(name, wanted.tests) for name in names}
    texts = {name: cases for name, cases in found.items() if name not in (RUNS, "real")}
    if wanted.tried:
        texts = {name: [case for case in cases if len(case.text) <= TRIED_TEXT] for name, cases in texts.items()}
    share = share_of(wanted.most, texts, lambda case: len(case.text.encode()))
    share = min(share, share_of(TRIED_VALUES if wanted.tried else None, texts, lambda case: len(compact(case.wanted))))
    return found | {name: taken(cases, share) for name, cases in texts.items()}


def add_arguments(words):
    words.add_argument("program", metavar="PROGRAM", help="a built weedle_check or weedle_list, or a folder with both below it")
    words.add_argument("folder", metavar="FOLDER", nargs="*", help="a folder of tests/, as random; without one all")
    words.add_argument("--most", type=int, metavar="BYTES", help="take texts of so many bytes together at most")
    words.add_argument("--every", type=int, default=EVERY, metavar="N", help=f"weedle_list reads each Nth text of a folder ({EVERY})")
    words.add_argument("--real", metavar="FOLDER", help="where the real files are")
    words.add_argument("--try", dest="tried", action="store_true", help="PROGRAM is a crate, which rt try builds and runs")
    words.add_argument("--tests", default=TESTS, metavar="FOLDER", help="where the cases are, if not in tests")


def run(wanted, report):
    programs, chosen = programs_meant(wanted.program, wanted.tried), chosen_cases(wanted)
    for program, kind in programs:
        run_program(program, kind, wanted, chosen, report)
