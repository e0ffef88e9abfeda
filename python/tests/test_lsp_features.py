"""What the language server says of texts: each feature over a text, and over a folder.

Expected is what a person sees in the texts; places were counted by hand.
"""

import tempfile
import unittest
from pathlib import Path

from lsp_client import PAGE, Client, places, range_, where
from write.slips import slips
from weedle import Span
from weedle.lsp import layout, renaming
from weedle.lsp.diagnostics import actions
from weedle.lsp.protocol import Fault
from weedle.lsp.sources import Source

TEXT = """\
// A page,
// of a book.
[Exposed=Window]
interface Page : Base {
  // how wide
  readonly attribute long width; // in points
  undefined turn(Page other, optional Store store = {});
  undefined turn(long count);
  constructor();
};
partial interface Page { attribute Store? store; };
dictionary Store { required DOMString name; };
enum Kind { "left", "right" };
Page includes Shown;
interface mixin Shown { const long DEPTH = 1; };
interface Base {};
typedef (Page or Store) Either;
"""
# Of kinds of symbols and of completions, the numbers of the protocol.
CLASS, METHOD, PROPERTY, FIELD, CONSTRUCTOR, ENUM, INTERFACE, CONSTANT, MEMBER, STRUCT, TYPE = (
    5, 6, 7, 8, 9, 10, 11, 14, 22, 23, 26)
REQUEST_FAILED, INVALID_PARAMS = -32803, -32602
# Of the texts with a slip so many at least are mended by an action: docs/SLIPS.md has 134 of 155.
MEND = 0.85


def applied(text, changes):
    """A text of ASCII with changes."""
    lines = text.split("\n")
    starts = [sum(len(line) + 1 for line in lines[:at]) for at in range(len(lines) + 1)]
    found = sorted(
        (starts[line] + at, starts[last] + behind, it["newText"])
        for it in changes for line, at, last, behind in places([it])
    )
    for start, end, new in reversed(found):
        text = text[:start] + new + text[end:]
    return text


class Features(unittest.TestCase):
    """A server for all tests of a class."""

    CAPABILITIES = {"textDocument": {"documentSymbol": {"hierarchicalDocumentSymbolSupport": True}}}

    @classmethod
    def setUpClass(cls):
        cls.page = Client()
        cls.addClassCleanup(cls.page.close)
        cls.page.initialize(**cls.CAPABILITIES)

    def setUp(self):
        self.page.open(TEXT)


class Errors(Features):
    def mended(self, text):
        """The title of what mends a text, and the text with it."""
        (error,) = self.page.open(text)
        (action,) = self.page.about("textDocument/codeAction", range=error["range"], context={"diagnostics": [error]})
        self.assertEqual((action["kind"], action["diagnostics"]), ("quickfix", [error]))
        return action["title"], applied(text, action["edit"]["changes"][PAGE])

    def test_a_text_without(self):
        for text in ("", " \n", "// a\n/* b */", TEXT):
            self.assertEqual(self.page.open(text), [], text)

    def test_where_it_is_and_what_is_said(self):
        (error,) = self.page.open("interface A {};\ninterface B {\n  atribute long x;\n};")
        self.assertEqual(error["range"], range_(2, 2, 2, 10))
        self.assertEqual(error["message"], "`attribute` in place of `atribute`? (expected `(` at 3:17)")
        self.assertEqual((error["severity"], error["source"], error["code"]), (1, "weedle", "syntax"))
        (other,) = error["relatedInformation"]
        self.assertEqual((other["message"], other["location"]["range"]), ("expected `(`", range_(2, 16, 2, 17)))

    def test_without_a_hint(self):
        (error,) = self.page.open("interface A { attribute x; };")
        self.assertEqual((error["range"], error["message"]), (range_(0, 25, 0, 26), "expected `(`, `?` or a name"))
        self.assertEqual(self.page.about("textDocument/codeAction", range=error["range"], context={"diagnostics": []}), [])

    def test_at_the_end(self):
        (error,) = self.page.open("typedef long A\n\n")
        self.assertEqual((error["range"], error["message"][:20]), (range_(0, 13, 0, 14), "`;` missing here? (e"))

    def test_what_mends_it(self):
        for text, title, mended in (
            ("typedef long A", "put `;` here", "typedef long A;"),
            ("interface A { atribute long x; };", "put `attribute` in place of `atribute`",
             "interface A { attribute long x; };"),
            ("typedef long A;;", "remove `;`", "typedef long A;"),
            ("interface A { attribute  readonly long x; };", "put `readonly` in front of `attribute`",
             "interface A { readonly  attribute long x; };"),
            ('enum E { "a"; "b" };', "put `,` in place of `;`", 'enum E { "a", "b" };'),
            ("interface A {\n  attribute long x;\n", "put `};` here", "interface A {\n  attribute long x;\n};\n"),
            ("interface A { attribute long x;", "put `};` here", "interface A { attribute long x;};"),
            ("interface A {\n  /// a\n  /// b\n  attribute long x;\n};", "make it a comment",
             "interface A {\n  // a\n  // b\n  attribute long x;\n};"),
            ("\ufefftypedef long A;", "remove the byte order mark", "typedef long A;"),
        ):
            self.assertEqual(self.mended(text), (title, mended), text)

    def test_only_on_its_line_and_where_it_is_asked_for(self):
        self.page.open("typedef long A\n;;")
        for line, only, count in ((0, None, 0), (1, None, 1), (1, ["quickfix"], 1), (1, ["refactor"], 0), (1, [""], 1)):
            context = {"diagnostics": [], **({"only": only} if only else {})}
            found = self.page.about("textDocument/codeAction", range=range_(line, 0, line, 0), context=context)
            self.assertEqual(len(found), count, (line, only))

    def test_places_in_utf_16(self):
        (error,) = self.page.open('enum E { "\u00e9\U0001f600" "b" };')
        self.assertEqual(error["message"], "`,` missing here? (expected `}` or `,` at 1:16)")
        self.assertEqual(error["relatedInformation"][0]["location"]["range"], range_(0, 15, 0, 16))

    def test_each_error(self):
        found = self.page.open('interface A { atribute long x; };\nenum E { "a" "b" };\ntypedef long;\ntypedef long T;')
        self.assertEqual([(it["range"]["start"]["line"], it["message"].split("?")[0]) for it in found], [
            (0, "`attribute` in place of `atribute`"), (1, "`,` missing here"), (2, "expected `"),
        ])
        for line, title in enumerate(("put `attribute` in place of `atribute`", "put `,` here")):
            (it,) = self.page.about("textDocument/codeAction", range=range_(line, 0, line, 0), context={"diagnostics": []})
            self.assertEqual((it["title"], it["diagnostics"]), (title, [found[line]]))

    def test_of_many_a_hundred_are_told(self):
        self.assertEqual(len(self.page.open("typedef long;\n" * 150)), 100)


class WithErrors(Features):
    """What is known of a text with errors."""

    TEXT = """\
// Of a page.
interface Page : Base {
  atribute long wide;
  attribute Page next; // of the book
  undefined turn(Kind kind);
};
enum Kind { "left" "right" };
interface Base {};
typedef Page Leaf;
partial interface Page { undefined turn(); };
"""

    def setUp(self):
        self.assertEqual(len(self.page.open(self.TEXT)), 2)

    def test_the_outline(self):
        found = self.page.about("textDocument/documentSymbol")
        self.assertEqual([(it["name"], it["detail"], len(it["children"])) for it in found], [
            ("Page", "interface, with errors", 2), ("Kind", "enum, with errors", 0), ("Base", "interface", 0),
            ("Leaf", "typedef", 0), ("Page", "partial interface", 1),
        ])
        self.assertEqual((found[0]["range"], found[0]["selectionRange"]), (range_(1, 0, 5, 2), range_(1, 10, 1, 14)))
        self.assertEqual([it["name"] for it in found[0]["children"]], ["next", "turn"])

    def test_names(self):
        self.assertEqual(places(self.page.at("textDocument/definition", 3, 14)), [(1, 10, 1, 14)])
        self.assertEqual(places(self.page.at("textDocument/definition", 4, 18)), [(6, 5, 6, 9)])
        found = self.page.at("textDocument/references", 1, 12, context={"includeDeclaration": True})
        self.assertEqual(places(found), [(1, 10, 1, 14), (3, 12, 3, 16), (8, 8, 8, 12), (9, 18, 9, 22)])
        found = self.page.at("textDocument/hover", 8, 9)["contents"]["value"]
        self.assertEqual(found, (
            "```webidl\ninterface Page : Base\n```\n\nOf a page.\n\nnot read whole\n\n"
            "`partial interface Page` (page.webidl:10)"
        ))

    def test_renames(self):
        found = self.page.at("textDocument/rename", 3, 14, newName="Sheet")["changes"][PAGE]
        self.assertEqual(places(found), [(1, 10, 1, 14), (3, 12, 3, 16), (8, 8, 8, 12), (9, 18, 9, 22)])
        found = self.page.at("textDocument/rename", 4, 14, newName="flip")["changes"][PAGE]
        self.assertEqual(places(found), [(4, 12, 4, 16), (9, 35, 9, 39)])

    def test_completion(self):
        found = {it["label"] for it in self.page.at("textDocument/completion", 4, 17)}
        self.assertLessEqual({"Page", "Kind", "Base", "Leaf", "optional"}, found)

    def test_a_layout(self):
        found = self.page.about("textDocument/formatting", options={})
        wanted = self.TEXT.replace("{ undefined turn(); }", "{\n  undefined turn();\n}")
        self.assertEqual(applied(self.TEXT, found), wanted.replace("{};\nt", "{};\n\nt").replace("Leaf;\n", "Leaf;\n\n"))


class Slips(unittest.TestCase):
    """The texts of tests/slips.txt, each with one slip."""

    def test_what_mends_the_first_error_mends_the_text(self):
        all_, mended = slips(), 0
        for slip in all_:
            source = Source(PAGE, slip.text.encode())
            for action in actions(source, Span(0, len(source.data)))[:1]:
                (edit,) = action["edit"]["changes"][PAGE]
                after = source.changed([{"range": edit["range"], "text": edit["newText"]}])
                self.assertEqual(after.reading.problems, [], (slip.line, action["title"]))
                mended += 1
        self.assertGreaterEqual(mended, MEND * len(all_))


class Outline(Features):
    def test_definitions_and_members(self):
        found = self.page.about("textDocument/documentSymbol")
        self.assertEqual([(it["name"], it["kind"], it["detail"]) for it in found], [
            ("Page", INTERFACE, "interface"), ("Page", INTERFACE, "partial interface"), ("Store", STRUCT, "dictionary"),
            ("Kind", ENUM, "enum"), ("Page includes Shown", INTERFACE, "includes"), ("Shown", CLASS, "interface mixin"),
            ("Base", INTERFACE, "interface"), ("Either", TYPE, "typedef"),
        ])
        self.assertEqual([(it["name"], it["kind"], it["detail"]) for it in found[0]["children"]], [
            ("width", PROPERTY, "readonly attribute long"),
            ("turn", METHOD, "undefined (Page other, optional Store store = {})"), ("turn", METHOD, "undefined (long count)"),
            ("constructor()", CONSTRUCTOR, ""),
        ])
        self.assertEqual([(it["name"], it["kind"]) for it in found[3]["children"]], [("left", MEMBER), ("right", MEMBER)])
        self.assertEqual([(it["name"], it["kind"]) for it in found[2]["children"]], [("name", FIELD)])
        self.assertEqual([(it["name"], it["detail"]) for it in found[5]["children"]], [("DEPTH", "const long = 1")])
        self.assertEqual((found[0]["range"], found[0]["selectionRange"]), (range_(2, 0, 9, 2), range_(3, 10, 3, 14)))

    def test_symbols_of_all_texts(self):
        found = self.page.ask("workspace/symbol", query="stre")
        self.assertEqual([(it["name"], it.get("containerName")) for it in found], [("Store", None), ("store", "Page")])
        self.assertEqual(places(found), [(11, 11, 11, 16), (10, 42, 10, 47)])
        self.assertEqual(self.page.ask("workspace/symbol", query="eerots"), [])

    def test_folds(self):
        self.page.open(
            "// a\n// b\n\n/* c\n*/ // d\ninterface A {\n  /// e\n  undefined f(\n    long x,\n    long y\n  );\n};\n"
            'dictionary D { DOMString x = "{";\n};\n// f\n')
        found = self.page.about("textDocument/foldingRange")
        self.assertEqual([(it["startLine"], it["endLine"], it.get("kind")) for it in found], [
            (0, 1, "comment"), (3, 4, "comment"), (5, 10, None), (7, 9, None),
        ])

    def test_folds_behind_an_error(self):
        self.page.open("interface A {\n  attribute long x\n  }\ninterface B {\n  attribute long y;\n};\n")
        found = self.page.about("textDocument/foldingRange")
        self.assertEqual([(it["startLine"], it["endLine"]) for it in found], [(0, 1), (3, 4)])

    def test_selections(self):
        (found,) = self.page.about("textDocument/selectionRange", positions=[{"line": 5, "character": 27}])
        spans = []
        while found:
            spans.append(tuple(places([found])[0]))
            found = found.get("parent")
        self.assertEqual(spans[-1], (0, 0, 17, 0))
        for span in ((5, 26, 5, 31), (5, 2, 5, 32), (3, 22, 9, 1), (2, 0, 9, 2)):
            self.assertIn(span, spans)
        self.assertEqual(len(spans), len(set(spans)))

    def test_a_list_for_an_editor_without_trees(self):
        page = Client()
        self.addCleanup(page.close)
        page.initialize()
        page.open("interface A { attribute long x; };")
        found = page.about("textDocument/documentSymbol")
        self.assertEqual([(it["name"], it.get("containerName")) for it in found], [("A", None), ("x", "A")])
        self.assertEqual(places(found), [(0, 10, 0, 11), (0, 29, 0, 30)])


class Names(Features):
    def test_definitions(self):
        for line, character, wanted in (
            (6, 18, [(3, 10, 3, 14)]), (6, 40, [(11, 11, 11, 16)]), (13, 0, [(3, 10, 3, 14)]), (13, 16, [(14, 16, 14, 21)]),
            (3, 18, [(15, 10, 15, 14)]), (5, 28, [(5, 26, 5, 31)]), (6, 21, [(3, 10, 3, 14)]), (11, 28, []),
            (2, 3, []), (0, 4, []),
        ):
            self.assertEqual(places(self.page.at("textDocument/definition", line, character)), wanted, (line, character))

    def test_references(self):
        for declared, wanted in (
            (True, [(3, 10, 3, 14), (6, 17, 6, 21), (10, 18, 10, 22), (13, 0, 13, 4), (16, 9, 16, 13)]),
            (False, [(6, 17, 6, 21), (10, 18, 10, 22), (13, 0, 13, 4), (16, 9, 16, 13)]),
        ):
            found = self.page.at("textDocument/references", 3, 12, context={"includeDeclaration": declared})
            self.assertEqual(places(found), wanted)
        self.assertEqual(self.page.at("textDocument/references", 0, 0, context={"includeDeclaration": True}), [])

    def test_highlights(self):
        found = self.page.at("textDocument/documentHighlight", 6, 13)
        self.assertEqual((places(found), [it["kind"] for it in found]), ([(6, 12, 6, 16), (7, 12, 7, 16)], [3, 3]))
        found = self.page.at("textDocument/documentHighlight", 11, 13)
        self.assertEqual([it["kind"] for it in found], [2, 2, 3, 2])
        self.page.open("[A, B] interface C { [A] attribute long A; };")
        found = self.page.at("textDocument/documentHighlight", 0, 1)
        self.assertEqual((places(found), [it["kind"] for it in found]), ([(0, 1, 0, 2), (0, 22, 0, 23)], [2, 2]))

    def hover(self, line, character):
        found = self.page.at("textDocument/hover", line, character)
        return found and (found["contents"]["value"], places([found])[0])

    def test_hover(self):
        page = (
            "```webidl\ninterface Page : Base\n```\n\nA page,\nof a book.\n\n4 members\n\n"
            "`partial interface Page` (page.webidl:11)\n\n`Page includes Shown` (page.webidl:14)"
        )
        self.assertEqual(self.hover(6, 19), (page, (6, 17, 6, 21)))
        width = "```webidl\nreadonly attribute long width;\n```\n\nhow wide\n\nof `interface Page : Base`"
        self.assertEqual(self.hover(5, 31), (width, (5, 26, 5, 31)))
        argument = "```webidl\noptional Store store = {}\n```\n\nof `undefined turn(Page other, optional Store store = {})`"
        self.assertEqual(self.hover(6, 45), (argument, (6, 44, 6, 49)))
        self.assertEqual(self.hover(12, 5), ('```webidl\nenum Kind { "left", "right" };\n```', (12, 5, 12, 9)))
        self.assertEqual(self.hover(16, 24), ("```webidl\ntypedef (Page or Store) Either;\n```", (16, 24, 16, 30)))
        for line, character in ((0, 5), (2, 2), (5, 5), (12, 14), (99, 99)):
            self.assertIsNone(self.hover(line, character))

    def test_a_docstring(self):
        self.page.open("/// Of all.\n[A] interface B { /* less */ attribute B b; };")
        self.assertEqual(self.hover(1, 39)[0], "```webidl\ninterface B\n```\n\nOf all.\n\n1 member")
        self.assertEqual(self.hover(1, 41)[0], "```webidl\nattribute B b;\n```\n\nless\n\nof `interface B`")

    def test_behind_an_error(self):
        self.page.open("interface A {};\ntypedef long;\ntypedef A B;")
        self.assertEqual(places(self.page.at("textDocument/definition", 2, 8)), [(0, 10, 0, 11)])


class Renames(Features):
    def renamed(self, line, character, name):
        found = self.page.at("textDocument/rename", line, character, newName=name)
        self.assertEqual(list(found["changes"]), [PAGE])
        return places(found["changes"][PAGE]), {it["newText"] for it in found["changes"][PAGE]}

    def refused(self, line, character, name):
        return self.page.fail("textDocument/rename", **where(line, character), newName=name)

    def test_a_definition(self):
        wanted = [(3, 10, 3, 14), (6, 17, 6, 21), (10, 18, 10, 22), (13, 0, 13, 4), (16, 9, 16, 13)]
        self.assertEqual(self.renamed(13, 2, "Sheet"), (wanted, {"Sheet"}))
        self.assertEqual(self.renamed(13, 2, "interface"), (wanted, {"_interface"}))

    def test_a_member_with_those_of_its_name(self):
        self.assertEqual(self.renamed(6, 14, "flip"), ([(6, 12, 6, 16), (7, 12, 7, 16)], {"flip"}))
        self.assertEqual(self.renamed(10, 44, "shop"), ([(10, 42, 10, 47)], {"shop"}))

    def test_an_argument(self):
        self.assertEqual(self.renamed(6, 46, "s"), ([(6, 44, 6, 49)], {"s"}))

    def test_an_underscore(self):
        self.page.open("interface _A {}; typedef _A B;")
        self.assertEqual(self.renamed(0, 11, "C"), ([(0, 10, 0, 12), (0, 25, 0, 27)], {"C"}))

    def test_what_is_refused(self):
        self.assertEqual(self.refused(3, 12, "Store"), (REQUEST_FAILED, "Store is defined already, in page.webidl, line 12"))
        self.assertEqual(
            self.refused(5, 28, "turn"), (REQUEST_FAILED, "turn is a member already, in page.webidl, line 7"))
        self.assertEqual(self.refused(3, 12, "a b")[0], INVALID_PARAMS)
        self.assertEqual(self.refused(3, 12, "")[0], INVALID_PARAMS)
        for line, character in ((0, 0), (2, 3), (2, 11), (12, 14)):
            self.assertEqual(self.refused(line, character, "x"), (REQUEST_FAILED, "nothing here can be renamed"))

    def test_a_part_that_is_not_read(self):
        self.page.open("interface A {};\ntypedef A B;\n) A;")
        self.assertEqual(self.refused(0, 10, "C"), (REQUEST_FAILED, "A stands in what isn't read, in page.webidl, line 3"))
        self.assertEqual(self.renamed(1, 10, "C"), ([(1, 10, 1, 11)], {"C"}))

    def test_a_word_of_the_grammar(self):
        self.page.open("interface A {};\ntypedef (A or long) B;")
        self.assertEqual(self.renamed(0, 10, "long"), ([(0, 10, 0, 11), (1, 9, 1, 10)], {"_long"}))

    def test_what_would_be_read_otherwise(self):
        source = Source(PAGE, b"interface A {}; typedef A B;")
        spans = [name.span for name in source.names_of("A")]
        self.assertEqual(len(renaming.renamed(source, spans, "C", "C")), 2)
        for new in ("long", "C D", "C?", "5", "B { attribute long x; }; interface C"):
            with self.assertRaisesRegex(Fault, "would be read as something else"):
                renaming.renamed(source, spans, new, new)

    def test_what_would_be_renamed(self):
        found = self.page.at("textDocument/prepareRename", 6, 20)
        self.assertEqual((found["range"], found["placeholder"]), (range_(6, 17, 6, 21), "Page"))
        for line, character in ((0, 0), (2, 3), (12, 14)):
            self.assertIsNone(self.page.at("textDocument/prepareRename", line, character))


class Layouts(Features):
    OPTIONS = {"tabSize": 4, "insertSpaces": True}

    def laid_out(self, text, *given):
        self.page.open(text)
        more = {"range": range_(*given)} if given else {}
        method = "rangeFormatting" if given else "formatting"
        return applied(text, self.page.about(f"textDocument/{method}", options=self.OPTIONS, **more))

    def test_a_text(self):
        text = "/* a */interface  A{attribute long x;};  // b\nenum E{\"a  b\"};"
        wanted = '/* a */ interface A {\n  attribute long x;\n}; // b\n\nenum E { "a  b" };\n'
        self.assertEqual(self.laid_out(text), wanted)
        self.assertEqual(self.page.open(wanted), [])
        self.assertEqual(self.page.about("textDocument/formatting", options=self.OPTIONS), [])

    def test_a_part(self):
        text = "interface  A{};\n\n\ninterface  B{};\n\n\ninterface  C{};\n"
        self.assertEqual(self.laid_out(text, 3, 2, 3, 4), "interface  A{};\n\n\ninterface B {};\n\n\ninterface  C{};\n")
        self.assertEqual(self.laid_out(text, 1, 0, 2, 0), text)
        self.assertEqual(self.laid_out(text, 4, 0, 9, 0), "interface  A{};\n\n\ninterface  B{};\n\n\ninterface C {};\n")

    def test_a_text_with_an_error(self):
        text = "interface  A{};\n\n\ninterface  B{\n"
        self.assertEqual(self.laid_out(text), "interface A {};\n\n\ninterface  B{\n")
        self.page.open("interface  B{")
        self.assertEqual(self.page.fail(
            "textDocument/formatting", textDocument={"uri": PAGE}, options=self.OPTIONS)[0], REQUEST_FAILED)

    def test_blanks_alone(self):
        self.assertEqual(self.laid_out(" // a\n"), " // a\n")

    def test_lines_that_end_with_a_cr_too(self):
        source = Source(PAGE, b"interface  A{\r\n};\r\n\r\ninterface  B{};\r\n")
        found = [(it["newText"], *places([it])[0]) for it in layout.layout(source)]
        self.assertEqual(found, [
            ("", 0, 10, 0, 11), (" ", 0, 12, 0, 12), ("", 0, 13, 1, 0), ("", 3, 10, 3, 11), (" ", 3, 12, 3, 12)])
        found = [places([it])[0] for it in layout.layout_of(source, Span(0, 3))]
        self.assertEqual(found, [(0, 10, 0, 11), (0, 12, 0, 12), (0, 13, 1, 0)])


class Tokens(Features):
    def tokens(self, text, method="full", **more):
        """The tokens of a text: what they are, and their modifiers."""
        legend = self.legend
        lines = text.split("\n")
        data = self.page.about(f"textDocument/semanticTokens/{method}", **more)["data"]
        found, line, column = [], 0, 0
        for at in range(0, len(data), 5):
            down, right, size, kind, bits = data[at:at + 5]
            line, column = line + down, right + (0 if down else column)
            modifiers = [it for bit, it in enumerate(legend["tokenModifiers"]) if bits >> bit & 1]
            units = lines[line].encode("utf-16-le")[2 * column:2 * (column + size)].decode("utf-16-le")
            found.append((units, legend["tokenTypes"][kind], *modifiers))
        return found

    @classmethod
    def setUpClass(cls):
        cls.page = Client()
        cls.addClassCleanup(cls.page.close)
        cls.legend = cls.page.initialize()["capabilities"]["semanticTokensProvider"]["legend"]

    def test_a_text(self):
        text = (
            "/// d\n[A=B] interface _C : D { const long X = -1; attribute any interface; }; /* a\nb */\n"
            'enum E { "\u00e9\U0001f600" };'
        )
        self.page.open(text)
        self.assertEqual(self.tokens(text), [
            ("/// d", "comment", "documentation"), ("A", "decorator"), ("B", "type"), ("interface", "keyword"),
            ("_C", "interface", "declaration"), ("D", "type"), ("const", "keyword"), ("long", "type", "defaultLibrary"),
            ("X", "variable", "declaration", "readonly"), ("-1", "number"), ("attribute", "keyword"),
            ("any", "type", "defaultLibrary"), ("interface", "property", "declaration"), ("/* a", "comment"),
            ("b */", "comment"), ("enum", "keyword"), ("E", "enum", "declaration"), ('"\u00e9\U0001f600"', "string"),
        ])

    def test_a_part(self):
        text = "interface A {};\ninterface B { undefined f(long x); };\n// c\n"
        self.page.open(text)
        found = self.tokens(text, "range", range=range_(1, 14, 1, 16))
        self.assertEqual([it[:2] for it in found], [
            ("interface", "keyword"), ("B", "interface"), ("undefined", "type"), ("f", "method"), ("long", "type"),
            ("x", "parameter"),
        ])

    def test_behind_an_error(self):
        text = "typedef long;\ntypedef A B;"
        self.page.open(text)
        self.assertEqual(self.tokens(text)[2:], [("typedef", "keyword"), ("A", "type"), ("B", "type", "declaration")])
        text = "interface A { attribute; }; typedef B"
        self.page.open(text)
        self.assertEqual(self.tokens(text), [
            ("interface", "keyword"), ("A", "interface", "declaration"), ("attribute", "keyword"),
            ("typedef", "keyword"), ("B", "type"),
        ])


class Folder(unittest.TestCase):
    def setUp(self):
        room = tempfile.TemporaryDirectory()
        self.addCleanup(room.cleanup)
        self.room = Path(room.name, "a b\u00e9")
        self.room.mkdir()
        self.write("dom.webidl", "interface Node {};\n")
        self.write("below/more.idl", "\ufeffpartial interface Node { attribute Node? next; };\n")
        self.write("other.txt", "interface Node {};\n")
        self.write(".hidden/hidden.webidl", "interface Node {};\n")
        self.write("bad.webidl", "interface Node {};\n", encoding="utf-16")
        self.page = Client()
        self.addCleanup(self.page.close)

    def write(self, name, text, encoding="utf-8"):
        path = self.room / name
        path.parent.mkdir(exist_ok=True)
        path.write_text(text, encoding=encoding)

    def begin(self, **capabilities):
        self.page.initialize(self.room, **capabilities)
        self.uri = (self.room / "page.webidl").as_uri()
        self.page.open("interface Page { attribute Node node; };", self.uri)

    def files(self, found):
        return [(it["uri"].rpartition("/")[2], *places([it])[0]) for it in found]

    def test_names_over_files(self):
        self.begin()
        found = self.page.at("textDocument/definition", 0, 29, self.uri)
        self.assertEqual(self.files(found), [("dom.webidl", 0, 10, 0, 14)])
        found = self.page.at("textDocument/references", 0, 29, self.uri, context={"includeDeclaration": True})
        self.assertEqual(sorted(self.files(found)), [
            ("dom.webidl", 0, 10, 0, 14), ("more.idl", 0, 18, 0, 22), ("more.idl", 0, 35, 0, 39), ("page.webidl", 0, 27, 0, 31)])
        found = self.page.at("textDocument/rename", 0, 29, self.uri, newName="Knot")["changes"]
        self.assertEqual({uri.rpartition("/")[2]: len(it) for uri, it in found.items()}, {
            "page.webidl": 1, "dom.webidl": 1, "more.idl": 2})
        said = self.page.at("textDocument/hover", 0, 29, self.uri)["contents"]["value"]
        self.assertEqual(said, "```webidl\ninterface Node\n```\n\n`partial interface Node` (more.idl:1)")

    def test_symbols(self):
        self.begin()
        found = self.page.ask("workspace/symbol", query="no")
        self.assertEqual([(it["name"], it["location"]["uri"].rpartition("/")[2]) for it in found], [
            ("Node", "dom.webidl"), ("Node", "more.idl"), ("node", "page.webidl")])

    def test_a_file_that_is_open_is_as_the_editor_has_it(self):
        self.begin()
        self.page.open("\ninterface Node {};\n", (self.room / "dom.webidl").as_uri())
        found = self.page.at("textDocument/definition", 0, 29, self.uri)
        self.assertEqual(self.files(found), [("dom.webidl", 1, 10, 1, 14)])

    def test_files_that_change(self):
        self.begin(workspace={"didChangeWatchedFiles": {"dynamicRegistration": True}})
        asked = self.page.asked.get(timeout=60)
        self.assertEqual(asked["method"], "client/registerCapability")
        (it,) = asked["params"]["registrations"]
        self.assertEqual(it["registerOptions"]["watchers"][0], {"globPattern": "**/*.webidl"})
        self.assertEqual(len(self.page.ask("workspace/symbol", query="Node")), 3)
        self.write("new.webidl", "dictionary Nodes {};")
        (self.room / "below/more.idl").unlink()
        self.page.note("workspace/didChangeWatchedFiles", changes=[])
        found = self.page.ask("workspace/symbol", query="Node")
        self.assertEqual([it["name"] for it in found], ["Node", "node", "Nodes"])

    def test_folders_that_change(self):
        self.begin()
        gone = {"uri": self.room.as_uri(), "name": ""}
        self.page.note("workspace/didChangeWorkspaceFolders", event={"added": [], "removed": [gone]})
        self.assertEqual([it["name"] for it in self.page.ask("workspace/symbol", query="Node")], ["node"])
        self.page.note("workspace/didChangeWorkspaceFolders", event={"added": [gone], "removed": []})
        self.assertEqual(len(self.page.ask("workspace/symbol", query="Node")), 3)


if __name__ == "__main__":
    unittest.main()
