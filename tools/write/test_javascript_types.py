"""Tests javascript_types.py and javascript_text.py, in a second.

The types are those that the crates declare, and weedle2's names of them those of its documentation.
"""

import unittest

from description.readings import Declared
from shared.crates import TOP, Unfit
from description.today import RULES
from write.javascript_today import JavaScriptToday
from write.javascript_types import ROLES, Classes, JavaScriptMakers, Package, role_rows


class Types(unittest.TestCase):
    @classmethod
    def setUpClass(cls):
        cls.package = Package(Declared.of(TOP))
        cls.classes = Classes(cls.package)
        cls.makers = JavaScriptMakers(cls.classes).makers
        cls.today = JavaScriptToday(cls.classes)

    def texts(self, name):
        declared = self.package.declared
        return self.classes.texts(declared.types.get(name) or declared.aliases[name])

    def test_names_that_weedle2_has_otherwise(self):
        code, declared = self.texts("ReturnType")
        self.assertIn('  static Type = this.variant("Type", "Type_");\n', code)
        self.assertIn('Choice<"ReturnType", "Type", values.Type>', declared)
        self.assertIn('    record: "record_",\n', self.texts("RecordType")[0])

    def test_a_field_that_all_values_have(self):
        declaration = next(it for it in self.package.declared.types.values() if it.name == "EnumVariant")
        name, declaration.parts[0].name = declaration.parts[0].name, "span"
        try:
            self.assertRaises(Unfit, self.classes.texts, declaration)
        finally:
            declaration.parts[0].name = name

    def of_today(self, name):
        return next((code, declared) for it, code, declared in self.today.triples() if it == name)

    def test_what_a_factored_row_has_in_front_is_a_part_of_each_kind(self):
        code, declared = self.of_today("ConstMember")
        self.assertIn("class ConstMember extends Chosen {\n  static fields = {\n    docstrings: \"docstrings\",\n", code)
        self.assertIn("  get const() {\n    return chosenPart(this, 2);\n  }\n", code)
        self.assertIn("  readonly docstrings: readonly values.Docstring[];\n", declared)
        self.assertIn("  readonly attributes: readonly today.ExtendedAttributeList[];\n", declared)
        self.assertIn("  readonly constType: today.ConstType;\n", declared)
        code, _ = self.of_today("RequiredArgument")
        self.assertIn("  static fields = {\n    attributes: \"attributes\",\n    type: \"type_\",\n", code)

    def test_types_of_today(self):
        for rule, wanted in {
            "OPT_TODAY_DEFAULT": "today.Default | null", "TODAY_TYPE": "today.Type", "TODAY_DOCS": "readonly values.Docstring[]",
            "BRACED_TODAY_MIXIN_MEMBERS": "today.Braced<today.MixinMembers>", "ASTERISK": "today.Asterisk",
            "GENERICS_TODAY_TYPE": "values.Generics<today.Type>", "COMMA": "term.Comma", "OPT_COMMA": "term.Comma | null",
            "MAY_BE_NULL_TODAY_UNION_TYPE": "values.MayBeNull<today.UnionType>", "STRING_LIT": "values.StringLit",
            "TODAY_NUMBER_LIST": "values.Punctuated<today.Number, term.Comma>", "OPT_INHERITANCE": "values.Inheritance | null",
            "TODAY_KEY_AND_VALUE_TYPES": "readonly [today.AttributedType, term.Comma, today.AttributedType]",
        }.items():
            self.assertEqual(self.today.type(rule), wanted, rule)

    def test_each_rule_of_today_makes_something(self):
        makers = self.today.javascript_makers(self.makers)
        self.assertEqual(makers["today_doc"], "new Within(1)")
        self.assertEqual(makers["today_argument_list"], "new One(values.Punctuated, term.Comma)")
        self.assertIn("    today_const: [today.MixinMember.Const, today.ConstMember],\n", makers["today_mixin_member"])
        own = {it.name.lower() for it in RULES if it.name.startswith("TODAY_")}
        # what no definition follows gives nothing
        self.assertEqual(own - makers.keys(), {"today_trivia"})

    def test_a_variant_of_today_is_one_of_its_enum(self):
        code, declared = self.of_today("Definition")
        self.assertIn("class Definition extends Factored {\n", code)
        self.assertIn('  interface Enum extends Choice<"Definition", "Enum", today.EnumDefinition> {}\n', declared)

    def test_roles(self):
        text = (TOP / ROLES).read_text(encoding="utf-8")
        self.assertIn(("enum_definition", "Enum"), role_rows(text, "of_definition"))
        # a second name of three kinds, by the rules of both dialects
        self.assertEqual(len(role_rows(text, "of_later")), 6)
        self.assertRaises(Unfit, role_rows, text, "of_none")
