"""Tests unmatched.py over the types of the repository with one thing changed, in a second."""

import unittest

from description.declarations import declared_by, declared_in
from description.readings import CRATES, Declared
from look import unmatched

ALL = [it for crate in CRATES for it in declared_by(unmatched.TOP, crate)]
CALLBACK = """/// A callback, as `callback F = undefined (long x);`.
#[derive(Debug, PartialEq)]
pub struct CallbackDefinition<'a> {
    /// The extended attributes in brackets, where they stand.
    pub attributes: Option<ExtendedAttributeList<'a>>,
    /// The word `callback`.
    pub callback: Callback,
    /// Its name.
    pub identifier: Identifier<'a>,
    /// The `=`.
    pub assign: Assign,
    /// The type of its result, as `undefined` or `long`.
    pub return_type: ReturnType<'a>,
    /// Its arguments, between parentheses: `body.list` is their list.
    pub arguments: ParenthesizedArgumentList<'a>,
    /// The `;` at the end.
    pub semi_colon: SemiColon,
}
"""
ITERABLE = """/// An iteration. Of what its variants read, `[extended attributes]` may be absent.
pub enum IterableInterfaceMember<'a> {
    /// `[extended attributes] iterable<type>;`.
    Single(SingleTypedIterable<'a>),
    /// `[extended attributes] iterable<type, type>;`.
    Double(DoubleTypedIterable<'a>),
}
"""
CALLBACK_AT, ITERABLE_AT = "weedle_x: CallbackDefinition", "weedle_x: IterableInterfaceMember"


def found(text, exceptions=()):
    """What is found where these declarations stand in place of those of their names."""
    changed = declared_in(text)
    for it in changed:
        it.crate = "weedle_x"
    known = [*unmatched.EXCEPTIONS, *exceptions]
    return list(unmatched.found_in(Declared([*ALL, *changed]), known))


class Kinds(unittest.TestCase):
    def test_how_many_there_are(self):
        for number, why in (("two", []), ("three", ["the doc says that it is the first of the three kinds, and there are 2"])):
            text = ITERABLE.replace("An iteration.", f"An iteration: the first of the {number} kinds that fits.")
            self.assertEqual(found(text), [f"{ITERABLE_AT}: {it}" for it in why])


class Fields(unittest.TestCase):
    def test_the_repository_is_as_the_grammar(self):
        self.assertEqual(found(""), [])
        self.assertEqual(found(CALLBACK + ITERABLE), [])

    def test_what_differs(self):
        """An order, a part that may be absent on one side only, a field too few or too many, a word's name, docs."""
        end = "    pub semi_colon: SemiColon,\n"
        for old, new, place, why in (
            ("callback: Callback", "identifier: Identifier<'a>", ".identifier",
             "is read by IDENTIFIER, and CALLBACK_DEFINITION has CALLBACK"),
            ("Option<ExtendedAttributeList<'a>>", "ExtendedAttributeList<'a>", ".attributes",
             "is read by EXTENDED_ATTRIBUTE_LIST, and CALLBACK_DEFINITION has OPT_EXTENDED_ATTRIBUTE_LIST"),
            ("assign: Assign", "assign: Option<Assign>", ".assign",
             "no rule has the row Opt ASSIGN, and CALLBACK_DEFINITION has ASSIGN"),
            (end, "", "", "lacks SEMI_COLON, which CALLBACK_DEFINITION reads"),
            (end, end + "    pub more: SemiColon,\n", ".more",
             "is read by SEMI_COLON, and CALLBACK_DEFINITION has no more parts"),
            ("callback: C", "getter: C", ".getter", "the name isn't that of CALLBACK"),
            ("The word `callback`.", "The word `interface`.", ".callback", "`interface` isn't what CALLBACK reads"),
            ("The `=`.", "The `=`, where it stands.", ".assign",
             "the doc says otherwise whether it may be absent: The `=`, where it stands."),
            ("/// A callback,", "/// A docstring may precede it. A callback,", "",
             "the doc says otherwise whether it has OPT_DOCSTRING: a docstring may precede it"),
        ):
            self.assertIn(old, CALLBACK)
            self.assertEqual(found(CALLBACK.replace(old, new)), [f"{CALLBACK_AT}{place}: {why}"])

    def test_a_struct_of_a_choice(self):
        rows = found("pub struct Special {\n    pub getter: Getter,\n}\n")
        self.assertEqual(rows, ["weedle_x: Special: SPECIAL is a First, and it is a struct"])

    def test_a_type_with_parameters(self):
        mark = "    /// The `!`.\n    pub mark: Option<QMark>,\n"
        rows = found(f"pub struct MayBeNull<T> {{\n    pub type_: T,\n{mark}}}\n")
        self.assertEqual([row.split()[1] for row in rows], ["MayBeNull.mark:"] * 3)

    def test_a_type_without_a_rule_and_a_rule_without_a_type(self):
        rows = found("pub struct Lone {\n    pub a: Or,\n}\n")
        self.assertEqual(rows, ["weedle_x: Lone: no rule has the name LONE"])
        fewer = Declared([it for it in ALL if it.name != "ConstMember"])
        rows = list(unmatched.found_in(fewer, unmatched.EXCEPTIONS))
        self.assertIn("weedle_grammar: CONST_MEMBER: no type has the name of this rule", rows)


class Variants(unittest.TestCase):
    def test_what_differs(self):
        """An order, a name, a production, what may be absent and isn't said, and what is never absent."""
        absent = "EXTENDED_ATTRIBUTE_LIST may be absent, and the doc doesn't say so"
        for old, new, places, why in (
            ("Single(SingleTyped", "Single(DoubleTyped", ["Single"],
             "is read by DOUBLE_TYPED_ITERABLE, and ITERABLE_INTERFACE_MEMBER has SINGLE_TYPED_ITERABLE"),
            ("Single(", "Lone(", ["Lone"], "the name isn't of SINGLE_TYPED_ITERABLE"),
            ("iterable<type>;", "maplike<type>;", ["Single"],
             "`[extended attributes] maplike<type>;` isn't what SINGLE_TYPED_ITERABLE reads"),
            (" Of what its variants read, `[extended attributes]` may be absent.", "", ["Single", "Double"], absent),
            ("<type>;`.", "<type>;`, also without `iterable`.", ["Single"],
             "`iterable` isn't absent in any reading of SINGLE_TYPED_ITERABLE"),
        ):
            self.assertIn(old, ITERABLE)
            rows = found(ITERABLE.replace(old, new))
            self.assertEqual(rows, [f"{ITERABLE_AT}.{it}: {why}" for it in places])

    def test_exceptions(self):
        lone = ITERABLE.replace("Single(", "Lone(")
        self.assertEqual(found(lone, [f"{ITERABLE_AT}.Lone"]), [])
        self.assertEqual(found(lone, [ITERABLE_AT]), [])
        self.assertEqual(found("", [ITERABLE_AT]), [f"{ITERABLE_AT}: no exception is needed any more"])
