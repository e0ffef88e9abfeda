"""Reads files of WebIDL, and writes what is in them.

    weedle [--json | --syntax | --format [--check | --write] [--partial]] [--errors N] [--today] [FILE..]
    weedle lint [--json] [--ignore CODE].. [--known FILE].. [--today] FILE..
    weedle lsp

`python3 -m weedle` is the same. The second checks files by rules that the grammar doesn't have:
weedle/lint.py says what it writes, and its statuses. The third is a language server, of
weedle/lsp. The first reads: without a file it reads
standard input, which `-` names too. With
`--json` it writes each definition as JSON on a line; of several files each line is an object with
the `file` and the `definition`. With `--syntax` it writes each node on a line, indented by its
depth, with `--format` the formatted text; what is refused, and why, it then says on standard error.
With none of them it says that on standard output, and last how many files were read and refused, as
weedle_check does. Of each file it says the first N errors, 20 where no number is given, and how many
more there are; where files have more errors than one, the last line has their number. With 1 no
others are looked for. With
`--format --check` it names the files whose layout would change, and with `--format --write` it
replaces each of them at once; both say on standard output what is refused, of each file the first
error, and how many there were, as weedle_format does. With `--partial` beside `--format` the
definitions that are read of a file that is refused are formatted too, and all else of it stays byte
for byte. With `--today` files are read by the rules of today's WebIDL. Without it what is said of a
file that those alone read whole ends with a line that says so. The status is 0 where all is read, 1
where something is refused or would change, 2 where a file can't be read or isn't UTF-8, 3 where
memory ran out, 4 where a file or the output can't be written, and 5 where the arguments are others; of
several the greatest.
"""

from __future__ import annotations

import argparse
import errno
import json
import os
import shutil
import sys
import tempfile
from contextlib import suppress
from enum import IntEnum
from functools import partial
from typing import BinaryIO, Callable, Dict, NoReturn, Optional, Sequence, Tuple

from weedle import Dialect, Refused, __version__, format, lint, parse, recover, syntax
from weedle.errors import READ_TODAY

# What writes the text of a file, whose name it is told where there are several, and where it is laid
# out, by a dialect. It gives whether the layout would change.
Write = Callable[[bytes, BinaryIO, Optional[str], Dialect], Optional[bool]]
# The option that says that today's rules are meant, as messages name it too.
IN_PROGRAMS = "--today"
# How many errors of a file are said where no number is given.
MOST_ERRORS = 20
# How a message calls standard input, and what names it.
STANDARD_INPUT, DASH = "<stdin>", "-"
EPILOG = """\
Without an option it says which files are refused, and why, and how many there were.

Status: 0 all is read, 1 something is refused or would change, 2 a file can't be read or isn't
UTF-8, 3 out of memory, 4 a file or the output can't be written, 5 other arguments than these; of
several the greatest.

weedle lint checks files by the rules of Web IDL that the grammar doesn't have, and weedle lsp is a
language server: weedle lint --help and weedle lsp --help say more."""


class Status(IntEnum):
    """What a run comes to."""

    READ = 0
    REFUSED = 1
    UNREADABLE = 2
    NO_MEMORY = 3
    UNWRITTEN = 4
    MISUSED = 5


class Unwritten(Exception):
    """Why a file can't be replaced."""


class Parser(argparse.ArgumentParser):
    """A parser whose status for other arguments is the programs' own."""

    def error(self, message: str) -> NoReturn:
        self.print_usage(sys.stderr)
        self.exit(Status.MISUSED, f"{self.prog}: {message}\n")


def write_json(data: bytes, out: BinaryIO, name: Optional[str], dialect: Dialect) -> None:
    """Writes each definition on a line, with the file's name where there are several.

    A definition that is written is let go of.
    """
    front, back = (f'{{"file":{json.dumps(name)},"definition":', "}") if name else ("", "")
    definitions = parse(data, dialect=dialect)
    definitions.reverse()
    while definitions:
        out.write(f"{front}{definitions.pop().to_json()}{back}\n".encode())


def write_syntax(data: bytes, out: BinaryIO, name: Optional[str], dialect: Dialect) -> None:
    """Writes each node on a line: its name, its bytes, and of one with none below it its text."""
    for node in syntax(data, dialect=dialect).walk():
        start, end = node.span
        said = f"{'  ' * node.depth}{node.name} {start}..{end}"
        if not node.children:
            said += f" {json.dumps(node.text, ensure_ascii=False)}"
        out.write(f"{said}\n".encode())


def write_format(
    data: bytes, out: BinaryIO, name: Optional[str], dialect: Dialect, is_partial: bool = False
) -> bool:
    """Writes the formatted text; with `is_partial` that of which the definitions that are read are so."""
    out.write(format(data, partial=is_partial, dialect=dialect))
    return False


def write_name(
    data: bytes, out: BinaryIO, name: Optional[str], dialect: Dialect, is_partial: bool = False
) -> bool:
    """Writes the file's name where its layout would change."""
    changes = format(data, partial=is_partial, dialect=dialect) != data
    if changes:
        out.write(os.fsencode(f"{name}\n"))
    return changes


def write_file(
    data: bytes, out: BinaryIO, name: Optional[str], dialect: Dialect, is_partial: bool = False
) -> bool:
    """Replaces the file by what was formatted, and writes its name, where that changes it."""
    laid_out = format(data, partial=is_partial, dialect=dialect)
    changes = laid_out != data
    if changes:
        replace(os.path.realpath(name or ""), laid_out)
        out.write(os.fsencode(f"{name}\n"))
    return changes


def replace(path: str, data: bytes) -> None:
    """Gives a file other bytes at once: its mode stays, and nobody sees a half of it."""
    beside = None
    try:
        with tempfile.NamedTemporaryFile(dir=os.path.dirname(path), delete=False) as file:
            beside = file.name
            file.write(data)
        shutil.copymode(path, beside)
        os.replace(beside, path)
    except OSError as fault:
        if beside:
            with suppress(OSError):
                os.remove(beside)
        raise Unwritten(f"{fault.strerror} (os error {fault.errno})") from fault


def write_nothing(data: bytes, out: BinaryIO, name: Optional[str], dialect: Dialect) -> None:
    """Only reads the text."""
    parse(data, dialect=dialect)


# What says on standard output what is refused, and how many files there were: what it did to those
# that change.
COUNTS: Dict[Write, str] = {
    write_nothing: "", write_name: "to be laid out", write_file: "laid out",
}
# What writes the layout of a file that is refused, by what writes that of others.
PARTLY: Dict[Write, Write] = {
    write_format: partial(write_format, is_partial=True),
    write_name: partial(write_name, is_partial=True),
    write_file: partial(write_file, is_partial=True),
}


def bytes_of(word: str) -> bytes:
    """What is in a file, or comes from standard input."""
    if word == DASH:
        if sys.stdin is None:
            raise OSError(errno.EBADF, os.strerror(errno.EBADF))
        return sys.stdin.buffer.read()
    with open(word, "rb") as file:
        return file.read()


class Run:
    """A run of the program over some files, each written by the same function.

    The function is told the name of the file where there are several, or where it is formatted.
    Of a file that is refused another one may write what is read of it.
    """

    def __init__(
        self, write: Write, out: BinaryIO, is_named: bool, most: int = MOST_ERRORS,
        partly: Optional[Write] = None, dialect: Dialect = "weedle2",
    ) -> None:
        self.write, self.out, self.most, self.partly = write, out, most, partly
        self.dialect: Dialect = dialect
        self.is_named = is_named or bool(COUNTS.get(write))
        self.files = self.refused = self.unread = self.changed = self.errors = 0

    def read(self, word: str) -> Status:
        """Reads the file that an argument names, and writes what is in it."""
        name = STANDARD_INPUT if word == DASH else word
        try:
            data = bytes_of(word)
        except OSError as fault:
            why = f"{fault.strerror} (os error {fault.errno})"
            return self.complain(name, f"cannot read input: {why}", Status.UNREADABLE)
        try:
            try:
                shown = name if self.is_named else None
                changes = bool(self.write(data, self.out, shown, self.dialect))
            except Refused as refused:
                return self.refuse(name, data, refused)
        except UnicodeDecodeError:
            return self.complain(name, "input is not UTF-8", Status.UNREADABLE)
        except MemoryError:
            return self.complain(name, "out of memory", Status.NO_MEMORY)
        except Unwritten as why:
            return self.complain(name, f"cannot write file: {why}", Status.UNWRITTEN)
        self.files, self.changed = self.files + 1, self.changed + changes
        return Status.REFUSED if changes and self.write is write_name else Status.READ

    def refuse(self, name: str, data: bytes, refused: Refused) -> Status:
        """Writes what is read of a file that is refused, where that is asked for, and says why it is."""
        if self.partly:
            self.changed += bool(self.partly(data, self.out, name, self.dialect))
        if COUNTS.get(self.write):
            self.tell(f"{name}:{refused.said(IN_PROGRAMS)}")
        else:
            self.tell_all(name, data, refused)
        self.files, self.refused = self.files + 1, self.refused + 1
        return Status.REFUSED

    def tell_all(self, name: str, data: bytes, refused: Refused) -> None:
        """Says all errors of a file: the first as `parse` has it, the others part by part."""
        try:
            others = recover(data, dialect=self.dialect).errors[1:] if self.most > 1 else []
        except (MemoryError, RecursionError):
            others = []
        self.errors += 1 + len(others)
        for it in [refused, *others][:self.most]:
            self.tell(f"{name}:{it.why()}")
        left = 1 + len(others) - self.most
        if left > 0:
            self.tell(f"{name}: {left} more error{'s' * (left != 1)}")
        if refused.is_read_today:
            self.tell(f"{READ_TODAY}: {IN_PROGRAMS}")

    def tell(self, line: str) -> None:
        """Says why a file is refused: where files are counted, there."""
        if self.write in COUNTS:
            # a file's name may have bytes that are no UTF-8
            self.out.write(line.encode(errors="surrogateescape") + b"\n")
        else:
            self.out.flush()
            print(line, file=sys.stderr)

    def complain(self, name: str, why: str, status: Status) -> Status:
        """Says on standard error why a file isn't read."""
        self.unread += 1
        print(f"{name}: {why}", file=sys.stderr)
        return status

    def summary(self) -> str:
        """How many files there were."""
        did = COUNTS[self.write]
        words = [f"{self.files} file{'s' * (self.files != 1)}"]
        words += [f"{self.changed} {did}"] if did else []
        words.append(f"{self.refused} refused")
        words += [f"{self.errors} errors"] if self.errors > self.refused else []
        words += [f"{self.unread} {'failed' if did else 'not read'}"] if self.unread else []
        return ", ".join(words)

    def read_all(self, words: Sequence[str]) -> Status:
        """Reads all files, and says how many there were where they are counted."""
        status = max(map(self.read, words))
        if self.write in COUNTS:
            self.out.write(f"{self.summary()}\n".encode())
        self.out.flush()
        return status


# An option: its name, what it does with a text, and its help. Of those of a tuple one may be given.
Option = Tuple[str, Write, str]
WAYS: Tuple[Option, ...] = (
    ("--json", write_json, "write each definition as JSON"),
    ("--syntax", write_syntax, "write each node, indented by its depth"),
    ("--format", write_format, "write the text laid out"),
)
LAYOUTS: Tuple[Option, ...] = (
    ("--check", write_name, "with --format: only name the files that would change"),
    ("--write", write_file, "with --format: replace the files that change"),
)


def number(word: str) -> int:
    """How many errors are said of a file, from 1 on."""
    found = int(word)
    if found < 1:
        raise ValueError(word)
    return found


def parser_of_words() -> Parser:
    """The parser of the arguments."""
    parser = Parser(
        prog="weedle", description="Reads files of WebIDL.", epilog=EPILOG,
        formatter_class=argparse.RawDescriptionHelpFormatter,
    )
    for place, options in (("write", WAYS), ("changes", LAYOUTS)):
        group = parser.add_mutually_exclusive_group()
        for option, write, words in options:
            group.add_argument(option, dest=place, action="store_const", const=write, help=words)
    parser.add_argument(
        "--partial", action="store_true",
        help="with --format: lay out what is read of files that are refused",
    )
    parser.add_argument(
        "--errors", metavar="N", type=number, default=MOST_ERRORS,
        help=f"say so many errors of each file at most ({MOST_ERRORS}); with 1 look for no others",
    )
    parser.add_argument(
        "--today", dest="dialect", action="store_const", const="today", default="weedle2",
        help="read by the rules of today's WebIDL, and not by those of weedle2",
    )
    parser.add_argument("--version", action="version", version=f"%(prog)s {__version__}")
    parser.add_argument(
        "files", metavar="FILE", nargs="*", help="else standard input is read, as by -",
    )
    return parser


def arguments(words: Optional[Sequence[str]]) -> argparse.Namespace:
    """The arguments of a run."""
    parser = parser_of_words()
    wanted = parser.parse_intermixed_args(words)
    if wanted.changes and wanted.write is not write_format:
        parser.error("--check and --write go with --format")
    if wanted.changes is write_file and (not wanted.files or DASH in wanted.files):
        parser.error("--write replaces files, and no standard input")
    if wanted.partial and wanted.write is not write_format:
        parser.error("--partial goes with --format")
    wanted.write = wanted.changes or wanted.write or write_nothing
    wanted.partly = PARTLY[wanted.write] if wanted.partial else None
    return wanted


def main(words: Optional[Sequence[str]] = None) -> int:
    """Does what the arguments ask for."""
    words = sys.argv[1:] if words is None else list(words)
    if words[:1] == ["lsp"]:
        from weedle.lsp import main as serve  # no other run waits for it

        return serve(words[1:])
    is_lint = words[:1] == ["lint"]
    wanted = arguments([] if is_lint else words)
    files = wanted.files or [DASH]
    if sys.stdout is None:
        print("cannot write output", file=sys.stderr)
        return Status.UNWRITTEN
    # with PYTHONUNBUFFERED `sys.stdout.buffer` may take a part of what is written, and tell nobody
    out = open(sys.stdout.fileno(), "wb", closefd=False)
    try:
        if is_lint:
            return lint.main(words[1:], out)
        run = Run(
            wanted.write, out, len(files) > 1, wanted.errors, wanted.partly, wanted.dialect,
        )
        return run.read_all(files)
    except OSError as fault:
        # what waits is let go of: Python 3.13 says of a buffer that it can't flush it
        with suppress(OSError):
            out.close()
        sys.stdout = None  # type: ignore[assignment]  # as Python itself has it where there is none
        # who reads no further, as `head`, asks for no word
        if not isinstance(fault, BrokenPipeError):
            print("cannot write output", file=sys.stderr)
        return Status.UNWRITTEN


if __name__ == "__main__":
    sys.exit(main())
