"""Tests of `run prints`, over programs that are made up."""

import tempfile
import unittest
from pathlib import Path

from measure.compare_with_weedle2 import Answer
from rows.table_reader import Table
from run import texts
from run.layouts import has_blanks_at_end
from run.prints import BETWEEN, Programs, failures_of_worked, one_wrong, worked, wrong_of
from run.programs import Built
from shared.crates import Unfit
from shared.test_support import Room

WORD = "between_two_texts"


class Fake(Programs):
    """A checker of texts whose definitions are lines: it reads those that end in `;`."""

    def __init__(self, changed: dict[str, str] | tuple = (), laid_out: bool = True, weedle2: object = None) -> None:
        super().__init__(Built("check"), Built("format"), weedle2)
        self.changed, self.is_laid_out = dict(changed), laid_out

    def output(self, program: Built, words: list[str], names: list[str], room: Path) -> str:
        option = words[0] if words else None
        if program is self.layout:
            return "" if self.is_laid_out else "".join(f"{name}\n" for name in names)
        parts = [self.answer(option, name, (room / name).read_text()) for name in names]
        count = "" if option == "--print" else f"{len(names)} files, 0 refused\n"
        return "".join(parts) + count

    def answer(self, option: str | None, name: str, text: str) -> str:
        lines = text.splitlines()
        if not all(line.endswith(";") for line in lines):
            return f"{name}:1:1: expected `;`\n"
        if option == "--tree":
            return "".join(f'{number}:1 Typedef("{" ".join(line.split()[:-1])}" "{self.word(line)}")\n'
                           for number, line in enumerate(lines, start=1))
        if option == "--print":
            return "".join(f"{self.changed.get(self.laid_out(line), self.laid_out(line))}\n" for line in lines)
        return ""

    def word(self, line: str) -> str:
        return line.removesuffix(";").split()[-1]

    def laid_out(self, line: str) -> str:
        return " ".join(line.split())


class Asked:
    """A weedle2 whose values are the words of a text."""

    def answers(self, files: list[str]) -> list[Answer]:
        return [Answer([], Path(file).read_text().replace(";", " ;").split()) for file in files]


def failures_of(fake: Fake, given: list[str]) -> tuple[int, list[tuple[str, str]]]:
    """How many texts are read, and those of which something is wrong."""
    with tempfile.TemporaryDirectory() as room:
        found = wrong_of(fake, given, Path(room))
    return len(found), [it for it in found if it[1]]


class Failures(unittest.TestCase):
    def test_what_is_not_read_is_left_out(self) -> None:
        self.assertEqual(failures_of(Fake(), ["a  b;\n", "a b\n", "c;\nd;\n", ""]), (3, []))

    def test_other_definitions(self) -> None:
        fake = Fake({"a b;": "a c;"})
        [(text, what)] = failures_of(fake, ["x;\n", "a b;\n"])[1]
        self.assertEqual((text, what), ("a b;\n", "it says other definitions: a c;\n"))

    def test_a_text_that_changes_when_it_is_written_again(self) -> None:
        self.assertIn("written again it changes", one_wrong("T", "T", "a;\n", "a ;\n", False))

    def test_what_is_not_read_again(self) -> None:
        [(_, what)] = failures_of(Fake({"a;": "a"}), ["b;\n", "a;\n"])[1]
        self.assertEqual(what, "what is written isn't read: a\n")

    def test_what_the_formatter_changes(self) -> None:
        [(_, what)] = failures_of(Fake(laid_out=False), ["a;\n"])[1]
        self.assertEqual(what, "the formatter changes it: a;\n")

    def test_values_of_weedle2(self) -> None:
        self.assertEqual(failures_of(Fake(weedle2=Asked()), ["a  b;\n"]), (1, []))
        self.assertEqual(one_wrong("T", "T", "b", "b", False, True), "weedle2 reads other values: b")

    def test_only_of_what_weedle2_reads_other_values_fail(self) -> None:
        class Some:
            def answers(self, files):
                return [Answer([], None if Path(it).name == "u" else [Path(it).name]) for it in files]

        self.assertEqual(texts.other_values(Some(), ["a", "u", "b"], ["a", "b", "c"], Path()), {2})
        self.assertEqual(texts.other_values(None, ["a"], ["b"], Path()), set())


class Worked(unittest.TestCase):
    def test_the_rows_read_both_as_the_same_values(self) -> None:
        table = Table(())
        for text, written in worked():
            with self.subTest(text=text):
                (end, values), (end_anew, values_anew) = table.read(text), table.read(written)
                self.assertEqual((end, end_anew), (len(text.encode()), len(written.encode())))
                self.assertEqual(values, values_anew)

    def test_no_line_ends_with_blanks(self) -> None:
        self.assertFalse([written for _, written in worked() if has_blanks_at_end(written)])

    def test_what_is_written_otherwise(self) -> None:
        fake = Fake()
        fake.written = lambda names, room: [written for _, written in worked()]
        self.assertEqual(failures_of_worked(fake), [])
        fake.written = lambda names, room: [written.replace("enum", "Enum") for _, written in worked()]
        self.assertTrue(failures_of_worked(fake))


class Between(Room):
    def test_answers_are_one_for_each_text(self) -> None:
        self.put({"between": "typedef any nothing;\n", "a": "a;\n"})
        with self.assertRaises(Unfit):
            Fake().written(["a"], self.root)

    def test_the_text_between_is_one_definition(self) -> None:
        self.assertEqual((BETWEEN.count(WORD), BETWEEN.count("\n")), (1, 1))
