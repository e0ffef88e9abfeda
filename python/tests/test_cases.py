"""The texts of tests/, each with what is wanted of it: values, places and words.

Values are weedle2's own, or by the grammar's rows where three rules were changed on purpose. `--json` has to write
them byte for byte in the port's names, in the order of weedle2's fields. Where WEEDLE_FILES names the folder of the real
files, as for test_weedle2.py, their sums are compared too, and every name and leaf with the slice of its text.
"""

import json
import os
import subprocess
import sys
import tempfile
import unittest
from pathlib import Path

from support import HOME
import weedle
from measure.compare_with_weedle2 import DEPTH, files_of
from run.cases import title_of
from shared.case_files import cases_of, folders
from write.make_cases import sum_of, without_text
from test_today import SAID
from test_values import all_values
from test_weedle2 import in_weedle2s_words

# The real files aren't here.
REAL = os.environ.get("WEEDLE_FILES")
FOLDERS = [name for name in folders() if name != "real"]
# How many texts the program is given at once.
TOGETHER = 500
# A variant that is named otherwise in the port.
RENAMED = {"Type": "Type_"}


def in_ports_words(value):
    """JSON of weedle2 as the port has it."""
    if isinstance(value, list):
        return [in_ports_words(it) for it in value]
    if not isinstance(value, dict):
        return value
    fields = {RENAMED.get(name, name): in_ports_words(it) for name, it in value.items()}
    if "record" not in fields:
        return fields
    types = {**fields["generics"], "body": {"RecordTypes": fields["generics"]["body"]}}
    return {"record_": fields["record"], "generics": types}


def lines_of(cases):
    """What is written of texts that are read, with the file of each where there are several."""
    for case in cases:
        for value in case.wanted["value"]:
            line = json.dumps(in_ports_words(value), ensure_ascii=False)
            yield f'{{"file":"{file_of(case)}","definition":{line}}}' if len(cases) > 1 else line


def file_of(case):
    """The name of the file of a case."""
    return f"{case.name}.webidl"


def written(cases):
    """What the program writes of these texts."""
    with tempfile.TemporaryDirectory() as room:
        for case in cases:
            Path(room, file_of(case)).write_bytes(case.text.encode())
        done = subprocess.run(
            [sys.executable, "-m", "weedle", "--json", *map(file_of, cases)], capture_output=True, check=False, cwd=room,
            env={**os.environ, "PYTHONPATH": str(HOME)},
        )
    return done.returncode, done.stdout.decode().split("\n"), done.stderr


class Cases(unittest.TestCase):
    @classmethod
    def setUpClass(cls):
        sys.setrecursionlimit(DEPTH)

    def test_json_of_all_that_is_read(self):
        for folder in FOLDERS:
            whole = [case for case in cases_of(folder) if case.is_read]
            for start in range(0, len(whole), TOGETHER):
                some = whole[start:start + TOGETHER]
                with self.subTest(folder, start=start):
                    status, lines, err = written(some)
                    self.assertEqual((status, err), (0, b""))
                    self.assertEqual(lines, [*lines_of(some), ""])

    def test_where_each_definition_begins(self):
        for folder in FOLDERS:
            for case in cases_of(folder):
                if case.is_read:
                    found = [f"{line}:{column}" for line, column in (it.position for it in weedle.parse(case.text))]
                    self.assertEqual(found, case.wanted["at"], case.text)

    def test_what_is_said_of_all_that_is_refused(self):
        count = 0
        for folder in FOLDERS:
            for case in cases_of(folder):
                if not case.is_read:
                    self.assert_refused(case.text, case.wanted)
                    count += 1
        self.assertGreater(count, 5_000)

    def assert_refused(self, text, wanted):
        with self.assertRaises(weedle.Refused) as raised:
            weedle.parse(text)
        refused = raised.exception
        self.assertEqual((refused.start, refused.place), (wanted["rest"], wanted["place"]), text)
        self.assertEqual(f"{refused.line}:{refused.column}", wanted["at"], text)
        hint = wanted.get("hint", "")
        # That today's rules read it is said behind the hint: test_today.py tries where.
        today = f"{SAID}\n" if refused.is_read_today else ""
        self.assertEqual(
            f"{refused}\n", f"{wanted['at']}: {wanted['says']}\n{wanted['shows']}{hint}{today}", text
        )
        self.assertEqual(refused.hint, hint.rstrip("\n") or None, text)
        self.assertIn(refused.expected, wanted["says"], text)


@unittest.skipUnless(REAL, "WEEDLE_FILES isn't set")
class RealFiles(unittest.TestCase):
    @classmethod
    def setUpClass(cls):
        names = {str(it.relative_to(REAL).with_suffix("")).replace("/", "."): it for it in files_of(REAL)}
        cls.texts = [(names[case.name].read_bytes().decode(), case.wanted) for case in cases_of("real")]

    def test_sums(self):
        for text, wanted in self.texts:
            self.assertEqual(sum_of(text), wanted["sum"])
            found = without_text(text, {"by": wanted["by"], **said_of(text)})
            # Sums that were made before hints were told have none of them.
            if "sum of hint" not in wanted:
                found.pop("sum of hint", None)
            self.assertEqual(found, wanted)

    def test_slices(self):
        count = 0
        for text, wanted in self.texts:
            if "rest" in wanted:
                continue
            data = text.encode()
            root = weedle.syntax(data)
            leaves = (it.span for it in root.walk() if not it.children)
            self.assertEqual(b"".join(data[start:end] for start, end in leaves), data)
            for value in all_values(weedle.parse(text)):
                if isinstance(value, weedle.common.Identifier):
                    start, end = value.char_span
                    self.assertEqual(text[start:end], value.value)
                    count += 1
        self.assertGreater(count, 10_000)


def said_of(text):
    """What the package says of a text, as tests/ has it."""
    try:
        definitions = weedle.parse(text)
    except weedle.Refused as refused:
        line, *shown = str(refused).split("\n")
        at, _, says = line.partition(": ")
        shows = "".join(f"{it}\n" for it in shown[:2])
        said = {"rest": refused.start, "place": refused.place, "at": at, "says": says, "shows": shows}
        return said | ({"hint": f"{refused.hint}\n"} if refused.hint else {})
    values = [in_weedle2s_words(json.loads(it.to_json())) for it in definitions]
    return {
        "list": [title_of({"value": it}) for it in values], "value": values,
        "at": [":".join(map(str, it.position)) for it in definitions],
    }


if __name__ == "__main__":
    unittest.main()
