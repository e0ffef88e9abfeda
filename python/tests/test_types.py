"""Types: what a checker of them says of the package and of programs over it, and what is known of them when a program runs.

`mypy --strict` is wanted; without it these tests are skipped. WEEDLE_MYPY names a Python that has it, where that isn't the
one that runs.
"""

import dataclasses
import io
import os
import pydoc
import subprocess
import sys
import tempfile
import typing
import unittest
from contextlib import redirect_stdout
from pathlib import Path

from support import HOME, TOP
import weedle
from test_examples import CODE
from weedle import (
    Definition, argument, attribute, common, definitions, dictionary, interface, literal, mixin, namespace, today, types,
)

MODULES = (argument, attribute, common, definitions, dictionary, interface, literal, mixin, namespace, today, types)
# The variants of `Definition` that the program of MATCH has no case for.
LEFT = "Definition_Enum"
MATCH = """\
from typing_extensions import assert_never
from weedle import Definition, parse

def name(it: Definition.Variants) -> str:
    match it:
        case Definition.Interface(value):
            return value.identifier.value
        case Definition.PartialInterface():
            return it.value.identifier.value
        case Definition.IncludesStatement(value):
            return value.lhs_identifier.value + value.rhs_identifier.value
        case Definition.Implements():
            return it.value.lhs_identifier.value
        case Definition.Callback() | Definition.CallbackInterface() | Definition.InterfaceMixin():
            return it.value.identifier.value
        case Definition.Namespace() | Definition.Dictionary() | Definition.PartialNamespace():
            return it.value.identifier.value
        case Definition.PartialInterfaceMixin() | Definition.PartialDictionary() | Definition.Typedef():
            return it.value.identifier.value
%s
        case _:
            assert_never(it)

for it in parse("A includes B; interface C {}; enum E { \\"a\\" };"):
    print(name(it))
"""
ENUM = "        case Definition.Enum():\n            return it.value.identifier.value"
# A program over both trees, in which a checker knows which is which.
DIALECTS = """\
import sys
from typing import List, Union
import weedle
from weedle import Definitions, Dialect, today
from weedle.common import Identifier

old: Definitions = weedle.parse("A includes B;")
new: today.Definitions = weedle.parse("[Exposed=*] interface A { const bigint B = 1; };", dialect="today")
dialect: Dialect = "today" if len(sys.argv) > 1 else "weedle2"
either: Union[Definitions, today.Definitions] = weedle.parse("", recover=True, dialect=dialect)
for it in new:
    if isinstance(it, today.Definition.Interface):
        names: List[Identifier] = [it.value.identifier]
        for member in it.value.members.body:
            if isinstance(member, today.InterfaceMember.Const):
                names.append(member.value.identifier)
        docs: List[str] = [doc.value for doc in it.value.docstrings]
        print([name.value for name in names], docs, [len(some.body) for some in it.value.attributes])
built = today.IncludesStatementDefinition(lhs_identifier=Identifier("A"), rhs_identifier=Identifier("B"))
print(built.to_webidl(), weedle.format("", dialect=dialect), weedle.syntax("", dialect="today").children)
index = weedle.Index(dialect="today")
read: today.Definitions = index.add(new)
print(index["A"].members()[0].name, weedle.Edits("", dialect=dialect).apply(), weedle.recover("", dialect="today").errors)
"""
WRONG = {
    "weedle.parse('', dialect='tomorrow')": 'No overload variant of "parse"',
    "weedle.syntax('', dialect='tomorrow')": 'incompatible type "Literal[\'tomorrow\']"',
    "weedle.parse('', dialect='today')[0].value.docstring": 'has no attribute "docstring"',
    "for it in weedle.parse('').find(weedle.IncludesStatementDefinition): it.lhs": '"IncludesStatementDefinition" has no attribute "lhs"',
    "weedle.common.Identifier(5)": 'incompatible type "int"; expected "str"',
    "next(weedle.parse('').find(weedle.common.Identifier)).value + 1": 'Unsupported operand types for + ("str" and "int")',
    "weedle.definitions.TypedefDefinition(identifier=weedle.common.Identifier('T'))": 'Missing named argument "type_"',
}


def has_mypy(python):
    return not subprocess.run([python, "-m", "mypy", "--version"], capture_output=True, check=False).returncode


PYTHON = next(
    (it for it in (os.environ.get("WEEDLE_MYPY", sys.executable), "/usr/bin/python3") if Path(it).exists() and has_mypy(it)), None
)


def checked(*words, version=None):
    """What `mypy --strict` says of some files."""
    with tempfile.TemporaryDirectory() as room:
        done = subprocess.run(
            [PYTHON, "-m", "mypy", "--strict", "--cache-dir", room, *(["--python-version", version] if version else []), *words],
            capture_output=True, text=True, check=False, cwd=room, env={**os.environ, "MYPYPATH": str(HOME)},
        )
        return done.stdout


@unittest.skipUnless(PYTHON, "there is no mypy")
class Checked(unittest.TestCase):
    def written(self, text, name="program.py"):
        room = tempfile.TemporaryDirectory()
        self.addCleanup(room.cleanup)
        file = Path(room.name, name)
        file.write_text(text, encoding="utf-8")
        return file

    def test_the_package_and_the_examples(self):
        examples = sorted((TOP / "examples/python").glob("*.py"))
        said = checked(HOME / "weedle", *examples)
        self.assertTrue(said.startswith("Success: no issues found"), said)

    def test_the_programs_of_pages(self):
        pages = [TOP / "docs/PYTHON.md", HOME / "README.md"]
        codes = [code for page in pages for code in CODE.findall(page.read_text(encoding="utf-8"))]
        self.assertGreater(len(codes), 6)
        files = [self.written(code, f"page_{number}.py") for number, code in enumerate(codes)]
        said = checked(*files, version="3.10")
        self.assertTrue(said.startswith("Success: no issues found"), said)

    def test_both_trees(self):
        said = checked(self.written(DIALECTS))
        self.assertTrue(said.startswith("Success: no issues found"), said)

    def test_a_match_over_all_variants(self):
        file = self.written(MATCH % ENUM)
        said = checked(file, version="3.10")
        self.assertTrue(said.startswith("Success: no issues found"), said)

    def test_a_match_that_lacks_one(self):
        said = checked(self.written(MATCH % ""), version="3.10")
        self.assertIn(f'Argument 1 to "assert_never" has incompatible type "{LEFT}"; expected "NoReturn"', said)

    def test_what_is_wrong_is_found(self):
        for words, message in WRONG.items():
            said = checked(self.written(f"import weedle\nimport weedle.common\n{words}\n"))
            self.assertIn(message, said)


class Known(unittest.TestCase):
    def test_hints_of_each_class(self):
        count = 0
        for module in MODULES:
            for name, kind in vars(module).items():
                if isinstance(kind, type) and kind.__module__ == module.__name__:
                    typing.get_type_hints(kind)
                    count += 1
                    if dataclasses.is_dataclass(kind):
                        typing.get_type_hints(kind.__init__)
        self.assertGreater(count, 200)

    def test_what_they_are(self):
        hints = typing.get_type_hints(definitions.InterfaceDefinition)
        self.assertIs(hints["identifier"], common.Identifier)
        self.assertEqual(hints["docstring"], typing.Optional[common.Docstring])
        self.assertEqual(
            typing.get_type_hints(definitions.EnumVariant)["value"], literal.StringLit)
        variants = typing.get_args(Definition.Variants)
        self.assertEqual(len(variants), 14)
        self.assertIn(Definition.Interface, variants)

    def test_both_trees(self):
        out = io.StringIO()
        with redirect_stdout(out):
            exec(compile(DIALECTS, "program", "exec"), {})
        self.assertEqual(out.getvalue().splitlines()[0], "['A', 'B'] [] [1]")
        self.assertEqual(len(typing.get_args(today.Definition.Variants)), 14)

    def test_help_has_the_doc_of_each_field(self):
        for module in MODULES:
            for name in module.__all__:
                kind = getattr(module, name)
                if isinstance(kind, type) and dataclasses.is_dataclass(kind):
                    self.assert_documented(kind)

    def assert_documented(self, kind):
        text = pydoc.plain(pydoc.render_doc(kind))
        for it in dataclasses.fields(kind):
            doc = vars(next(base for base in kind.__mro__ if it.name in vars(base)))[it.name].__doc__
            self.assertTrue(doc, (kind, it.name))
            self.assertIn(doc, text, (kind, it.name))

    def test_help_of_an_interface(self):
        out = io.StringIO()
        with redirect_stdout(out):
            help(weedle.InterfaceDefinition)
        self.assertIn("identifier = <field identifier>\n |      Its name.", out.getvalue())

    @unittest.skipIf(sys.version_info < (3, 10), "Python 3.9 has no match")
    def test_a_match_runs(self):
        out = io.StringIO()
        program = (MATCH % ENUM).replace("from typing_extensions", "from typing" if sys.version_info >= (3, 11) else "from weedle")
        if sys.version_info < (3, 11):
            program = program.replace("from weedle import assert_never\n", "assert_never = print\n")
        with redirect_stdout(out):
            exec(compile(program, "program", "exec"), {})
        self.assertEqual(out.getvalue(), "AB\nC\nE\n")


if __name__ == "__main__":
    unittest.main()
