"""Tests python_types.py and python_text.py, in a second.

The types are those that the crates declare, and weedle2's names of them those of its documentation.
"""

import ast
import unittest
from unittest import mock

from description import today
from description.readings import Declared
from description.today_types import RULE, STRUCTS, Field, Struct
from shared.crates import TOP
from write import python_types
from write.python_today import Today
from write.python_types import Makers, Package, class_text, reached


class Types(unittest.TestCase):
    @classmethod
    def setUpClass(cls):
        cls.package = Package(Declared.of(TOP))
        cls.makers = Makers(cls.package).makers

    def test_types_stand_in_weedle2s_modules(self):
        table = {
            "Interface": "term", "Braced": "common", "Default": "common", "DefaultValue": "literal",
            "MayBeNull": "types", "SingleType": "types", "Argument": "argument",
            "ExtendedAttribute": "attribute", "ConstMember": "interface", "MixinMember": "mixin",
            "NamespaceMember": "namespace", "DictionaryMember": "dictionary",
            "InterfaceDefinition": "definitions", "Definition": "definitions",
        }
        self.assertEqual({name: self.package.module[name] for name in table}, table)

    def test_names_that_weedle2_has_otherwise(self):
        for name in ("ParenthesizedArgumentList", "RecordTypes"):
            self.assertNotIn(name, self.package.module)
        result, record = (self.package.declared.aliases[it] for it in ("ReturnType", "RecordType"))
        self.assertIn('(ReturnType, variant="Type", in_json="Type_")', class_text(self.package, result))
        text = class_text(self.package, record)
        self.assertIn('    record: term.Record = word("The word `record`.")\n', text)
        self.assertIn("Generics[Tuple[RecordKeyType.Variants, term.Comma, Type.Variants]]", text)

    def test_types_of_today(self):
        written = Today(self.package)
        table = {
            "TODAY_DEFINITION": "Definition.Variants", "TODAY_DOCS": "List[Docstring]", "IDENTIFIER": "Identifier",
            "TODAY_ATTRIBUTE_LISTS": "List[ExtendedAttributeList]", "ASTERISK": "Asterisk", "ELLIPSIS": "term.Ellipsis",
            "BRACED_TODAY_MIXIN_MEMBERS": "Braced[MixinMembers]", "OPT_TODAY_ARGUMENTS": "Optional[Parenthesized[ArgumentList]]",
            "GENERICS_TODAY_ATTRIBUTED_TYPE": "Generics[AttributedType]", "TODAY_INTERFACE": "InterfaceDefinition",
            "MAY_BE_NULL_TODAY_WORD_TYPE": "MayBeNull[WordType.Variants]", "CONST_VALUE": "ConstValue.Variants",
            "PARENTHESIZED_TODAY_NUMBERS": "Parenthesized[Punctuated[Number.Variants, term.Comma]]",
            "GENERICS_TODAY_KEY_AND_VALUE_TYPES": "Generics[Tuple[AttributedType, term.Comma, AttributedType]]",
        }
        self.assertEqual({rule: written.annotation(rule) for rule in table}, table)
        words = [rule for rule in table if written.is_word(rule)]
        self.assertEqual(words, ["ASTERISK", "ELLIPSIS"])
        with self.assertRaisesRegex(ValueError, "nothing says what A.b is"):
            written.field_doc(Struct("A", "TODAY_CONST", "", ()), Field("b", "TODAY_TYPE"))

    def test_each_rule_of_today_makes_something(self):
        makers, _ = Today(self.package).makers(self.makers)
        unmade = {
            it.name for it in reached(today.RULES, "TODAY_DEFINITIONS")
            if it.shape == "Plain" and it.name.lower() not in {**makers, **self.makers}
        }
        # what is below a leaf, or in a list of weedle2's
        self.assertEqual({it for it in unmade if "TODAY" in it}, set())

    def test_no_class_of_today_is_another_of_weedle2s(self):
        structs = [it.name for it in STRUCTS.values()]
        self.assertEqual(len(structs), len(set(structs)))
        for it in STRUCTS.values():
            parts = RULE[it.rule].row[1]
            self.assertEqual([field.rule for field in it.fields], list(parts), it.name)

    def test_each_module_can_be_read(self):
        with mock.patch.object(python_types, "TOP", TOP):
            for name, text in python_types.texts():
                ast.parse(text, name, feature_version=(3, 9))
                self.assertLessEqual(max(map(len, text.splitlines())), 100, name)
