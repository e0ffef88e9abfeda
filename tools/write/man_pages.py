"""Writes the man pages of the commands, man/*.1, from what each says of itself with `--help`.

    python3 tools/write/man_pages.py [--check]

Of weedle, `weedle lint` and `weedle lsp` the program of the Python package is asked, and of weedle_check and weedle_format the text is
taken that their sources print. Version and date are those of the newest version of CHANGELOG.md.

It prints a line for each page that it changed. With --check it changes nothing and prints a line for each page that is stale;
the status is then 1 where there is one. A page of the Python package stays as it is, and a line says so, where the package
can't be loaded, as while the built library is of another version.
"""

import os
import re
import subprocess
import sys
from pathlib import Path
from typing import Iterator, NamedTuple

if not __package__:
    sys.path[0] = str(Path(__file__).resolve().parent.parent)

from shared.command_line import ended, parser_of
from shared.crates import TOP, Unfit

FOLDER = "man"
# The commands of the Python package, each with its words behind `python3 -m`, and the programs in Rattle.
PYTHON = {"weedle": ["weedle"], "weedle-lint": ["weedle", "lint"], "weedle-lsp": ["weedle", "lsp"]}
PROGRAMS = ("weedle_check", "weedle_format")
NEWEST = re.compile(r"^## (\d+\.\d+\.\d+) \((\d+-\d+-\d+)\)", re.M)
HELP = re.compile(r'^pub const HELP: &str = "\\\n(.*?)";$', re.M | re.S)
# An option or an argument with what it does, in a line of help; what is indented further goes on.
ROW = re.compile(r"^ {2}(\S.*?)(?: {2,}(.*))?$")
# A status with what it means, in a sentence of several.
STATUS = re.compile(r"\b(\d) (?:where )?(.+?)(?=,? (?:and )?\d |; of several|\.$)")
STATUSES = re.compile(r"^(?:Status: |.*\bThe status is )(?=\d)", re.S)
# What is marked in a text: code, options, and words in capitals that stand for others.
WORDS = re.compile(r"`(?P<code>[^`]*)`|(?<![\w-])(?P<option>--?[a-z][a-z-]*)|\b(?P<name>FILE|CODE)\b")


class Help(NamedTuple):
    """What a command says of itself: how it is called, paragraphs, options with what they do, and statuses."""

    usage: str
    about: list[str]
    options: list[tuple[str, str]]
    more: list[str]
    statuses: list[tuple[str, str]]


def options_in(block: str) -> list[tuple[str, str]]:
    found: list[tuple[str, str]] = []
    for line in block.splitlines():
        row = ROW.match(line)
        if row:
            found.append((row[1], row[2] or ""))
        elif found and line.startswith("   "):
            name, said = found.pop()
            found.append((name, f"{said} {line.strip()}".strip()))
    return found


def help_of(text: str) -> Help:
    """What a text of help says."""
    usage, *blocks = re.split(r"\n\s*\n", text.strip())
    about, options, more, statuses = [], [], [], []
    for block in blocks:
        rows = options_in(block)
        if rows and re.match(r"(?:[\w ]+:\n)? {2}\S", block):
            options += rows
            continue
        said = " ".join(block.split())
        behind = STATUSES.match(said)
        if behind:
            statuses += STATUS.findall(said[behind.end() :])
            said = said[: behind.end()].partition("Status: ")[0].rpartition("The status is ")[0].strip()
        if said:
            (more if options else about).append(said)
    return Help(" ".join(usage.removeprefix("usage: ").split()), about, options, more, statuses)


def escaped(text: str) -> str:
    """A text as troff reads it."""
    return text.replace("\\", "\\e").replace("-", "\\-").replace("~", "\\(ti").replace("^", "\\(ha")


def marked(text: str) -> str:
    """A text as troff reads it: options and code are bold, names that stand for others italic."""
    found, place = [], 0
    for it in WORDS.finditer(text):
        bold = it["code"] or it["option"]
        found.append(escaped(text[place : it.start()]))
        found.append(f"\\fB{escaped(bold)}\\fR" if bold else f"\\fI{it['name']}\\fR")
        place = it.end()
    said = "".join([*found, escaped(text[place:])])
    # A line that begins so would be one of troff's own.
    return f"\\&{said}" if said[:1] in (".", "'") else said


def sections(name: str, said: Help) -> Iterator[str]:
    """The lines of a page behind its head."""
    first, *rest = said.about[0].split(". ", 1)
    brief = first.rstrip(".")
    yield from (".SH NAME", f"{escaped(name)} \\- {escaped(brief[0].lower() + brief[1:])}")
    command, words = said.usage[: len(name)], said.usage[len(name) :].strip()
    yield from (".SH SYNOPSIS", f".B {escaped(command)}", marked(words))
    yield from (".SH DESCRIPTION", marked(said.about[0]))
    for paragraph in [*said.about[1:], *said.more]:
        yield from (".PP", marked(paragraph))
    yield ".SH OPTIONS"
    for option, what in said.options:
        yield from (".TP", marked(option), marked(what) or "\\&")
    yield ".SH EXIT STATUS"
    for number, what in said.statuses:
        yield from (".TP", f".B {number}", marked(what))
    yield ".SH SEE ALSO"
    others = [it for it in (*PYTHON, *PROGRAMS) if it != name]
    for number, other in enumerate(others, 1):
        yield f".BR {escaped(other)} (1){',' if number < len(others) else ''}"


def page_of(name: str, text: str, version: str, date: str) -> str:
    """The page of a command, by what it says with `--help`."""
    head = [
        '.\\" Written by tools/write/man_pages.py from what the command says with --help, and not edited by hand.',
        f'.TH {name.upper()} 1 {date} "weedle {version}" "User Commands"',
    ]
    return "".join(f"{row}\n" for row in [*head, *sections(name, help_of(text))])


def said_by_python(top: Path, words: list[str]) -> str | None:
    """What the program of the Python package says with `--help`; None where it can't be loaded."""
    plain = {"PYTHONPATH": str(top / "python"), "COLUMNS": "200", "NO_COLOR": "1", "PYTHON_COLORS": "0"}
    done = subprocess.run(
        [sys.executable, "-m", *words, "--help"], env={**os.environ, **plain}, capture_output=True, text=True, check=False
    )
    if done.returncode and "ImportError" not in done.stderr:
        raise Unfit(f"{' '.join(words)} --help fails:\n{done.stderr}")
    return None if done.returncode else done.stdout


def said_by_source(top: Path, name: str) -> str:
    """What the sources of a program print with `--help`."""
    found = HELP.search((top / f"crates/{name}/src/arguments.rt").read_text(encoding="utf-8"))
    if not found:
        raise Unfit(f"crates/{name}/src/arguments.rt has no HELP")
    return found[1]


def pages(top: Path) -> Iterator[tuple[str, str | None]]:
    """The path of each page with its text; None of one that can't be made now."""
    version, date = NEWEST.search((top / "CHANGELOG.md").read_text(encoding="utf-8")).groups()
    said = {name: said_by_python(top, words) for name, words in PYTHON.items()}
    said.update({name: said_by_source(top, name) for name in PROGRAMS})
    for name, text in said.items():
        yield f"{FOLDER}/{name}.1", text and page_of(name, text, version, date)


def look(top: Path, is_check: bool) -> Iterator[str]:
    """A line for each page that is stale, which is written where that is asked for."""
    for path, text in pages(top):
        place = top / path
        if text is None:
            yield f"{path}: left as it is, since the Python package can't be loaded: build the library anew"
        elif not place.exists() or place.read_text(encoding="utf-8") != text:
            yield f"{path}: stale, tools/write/write_all.py writes it" if is_check else f"changed {path}"
            if not is_check:
                place.parent.mkdir(exist_ok=True)
                place.write_text(text, encoding="utf-8")


def main() -> int:
    parser = parser_of(__doc__)
    parser.add_argument("--check", action="store_true", help="change nothing")
    is_check = parser.parse_args().check
    rows = [*look(TOP, is_check)]
    print(*rows, sep="\n", end="\n" if rows else "")
    return 1 if is_check and rows else 0


if __name__ == "__main__":
    sys.exit(ended(main))
