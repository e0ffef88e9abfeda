"""The language server over texts of today's WebIDL: where the dialect is said, and each feature by it.

Expected is what a person sees in the texts, and what the Language Server Protocol 3.17 says of settings; places were
counted by hand.
"""

import queue
import tempfile
import unittest
from pathlib import Path

from lsp_client import PAGE, PATIENCE, Client, places
from test_lsp_features import (
    CLASS, CONSTANT, CONSTRUCTOR, ENUM, FIELD, INTERFACE, MEMBER, METHOD, PROPERTY, STRUCT, TYPE, applied,
)

TODAY = {"dialect": "today"}
SAID = 'today\'s WebIDL reads it: "weedle.dialect": "today"'
TEXT = """\
/// A page.
[Exposed=*] [Serializable]
interface Page : Base {
  /// How wide.
  readonly attribute bigint width;
  undefined turn(optional Store store = undefined);
  async_iterable<Page>;
  constructor();
};
partial interface Page { attribute ObservableArray<Store> stores; };
dictionary Store { required [Clamp] octet size; };
enum Kind { "left", "right" };
Page includes Shown;
interface mixin Shown { const bigint DEPTH = 1; };
interface Base {};
typedef (Page or bigint) Either;
"""
SHORT = "[Exposed=*] interface A {};"
ASKED, FOLDERS = {"configuration": True}, {"configuration": True, "didChangeConfiguration": {"dynamicRegistration": True}}


class Features(unittest.TestCase):
    CAPABILITIES = {"textDocument": {"documentSymbol": {"hierarchicalDocumentSymbolSupport": True}}}

    @classmethod
    def setUpClass(cls):
        cls.page = Client()
        cls.addClassCleanup(cls.page.close)
        cls.page.initialize(options=TODAY, **cls.CAPABILITIES)

    def setUp(self):
        self.errors = self.page.open(TEXT)

    def test_it_is_read(self):
        self.assertEqual(self.errors, [])
        self.assertEqual(self.page.open(SHORT), [])
        self.assertEqual(self.page.open("// a comment alone"), [])

    def test_an_error(self):
        (error,) = self.page.open("[Exposed=*] interface A { attribute ObservableArray<> x; };")
        self.assertEqual(places([error]), [(0, 52, 0, 53)])
        self.assertIn("expected ", error["message"])
        self.assertNotIn("today's", error["message"])
        (error,) = self.page.open("interface A { atribute bigint x; };")
        (action,) = self.page.about("textDocument/codeAction", range=error["range"], context={"diagnostics": [error]})
        self.assertEqual(action["title"], "put `attribute` in place of `atribute`")

    def test_the_outline(self):
        shown = self.page.about("textDocument/documentSymbol")
        self.assertEqual([(it["name"], it["detail"], it["kind"], len(it["children"])) for it in shown], [
            ("Page", "interface", INTERFACE, 4), ("Page", "partial interface", INTERFACE, 1), ("Store", "dictionary", STRUCT, 1),
            ("Kind", "enum", ENUM, 2), ("Page includes Shown", "includes", INTERFACE, 0), ("Shown", "interface mixin", CLASS, 1),
            ("Base", "interface", INTERFACE, 0), ("Either", "typedef", TYPE, 0)])
        page = shown[0]
        self.assertEqual(places([page]), [(0, 0, 8, 2)])
        self.assertEqual((page["selectionRange"]["start"], page["selectionRange"]["end"]),
                         ({"line": 2, "character": 10}, {"line": 2, "character": 14}))
        self.assertEqual([(it["name"], it["detail"], it["kind"]) for it in page["children"]], [
            ("width", "readonly attribute bigint", PROPERTY), ("turn", "undefined (optional Store store = undefined)", METHOD),
            ("async_iterable<Page>", "", METHOD), ("constructor()", "", CONSTRUCTOR)])
        self.assertEqual(places(page["children"][:1]), [(3, 2, 4, 34)])
        self.assertEqual([(it["name"], it["kind"]) for one in shown[2:6] for it in one["children"]], [
            ("size", FIELD), ("left", MEMBER), ("right", MEMBER), ("DEPTH", CONSTANT)])

    def test_folds_and_selections(self):
        self.assertEqual([(it["startLine"], it["endLine"]) for it in self.page.about("textDocument/foldingRange")], [(2, 7)])
        (found,) = self.page.about("textDocument/selectionRange", positions=[{"line": 4, "character": 29}])
        spans = []
        while found:
            spans.append(places([found])[0])
            found = found.get("parent")
        # a name's first letter is read by a rule of its own
        self.assertEqual(spans, [(4, 28, 4, 29), (4, 28, 4, 33), (4, 2, 4, 34), (3, 2, 4, 34), (3, 2, 7, 16), (2, 22, 8, 1),
                                 (2, 0, 8, 2), (0, 0, 8, 2), (0, 0, 16, 0)])

    def test_names(self):
        found = self.page.at("textDocument/definition", 9, 53)
        self.assertEqual(places(found), [(10, 11, 10, 16)])
        found = self.page.at("textDocument/references", 10, 12, context={"includeDeclaration": False})
        self.assertEqual(sorted(places(found)), [(5, 26, 5, 31), (9, 51, 9, 56)])
        found = self.page.at("textDocument/documentHighlight", 4, 30)
        self.assertEqual(places(found), [(4, 28, 4, 33)])

    def test_hover(self):
        said = self.page.at("textDocument/hover", 12, 1)["contents"]["value"]
        self.assertEqual(said, (
            "```webidl\ninterface Page : Base\n```\n\nA page.\n\n4 members\n\n"
            "`partial interface Page` (page.webidl:10)\n\n`Page includes Shown` (page.webidl:13)"))
        said = self.page.at("textDocument/hover", 4, 30)["contents"]["value"]
        self.assertEqual(said, "```webidl\nreadonly attribute bigint width;\n```\n\nHow wide.\n\nof `interface Page : Base`")
        said = self.page.at("textDocument/hover", 5, 34)["contents"]["value"]
        self.assertIn("optional Store store = undefined", said)

    def test_renames(self):
        changes = self.page.at("textDocument/rename", 10, 12, newName="Shop")["changes"][PAGE]
        self.assertEqual(applied(TEXT, changes), TEXT.replace("Store ", "Shop ").replace("<Store>", "<Shop>"))
        changes = self.page.at("textDocument/rename", 4, 30, newName="async_sequence")["changes"][PAGE]
        self.assertEqual(applied(TEXT, changes), TEXT.replace("bigint width", "bigint _async_sequence"))

    def test_completion(self):
        text = "interface A { attribute O"
        self.page.open(text)
        labels = [it["label"] for it in self.page.at("textDocument/completion", 0, len(text))]
        self.assertIn("ObservableArray", labels)
        self.page.open("interface A { async")
        labels = [it["label"] for it in self.page.at("textDocument/completion", 0, 19)]
        self.assertIn("async_iterable", labels)

    def test_a_layout(self):
        text = "[Exposed=*]interface   A{attribute bigint  x;};"
        self.page.open(text)
        changes = self.page.about("textDocument/formatting", options={"tabSize": 2, "insertSpaces": True})
        laid_out = applied(text, changes)
        self.assertEqual(laid_out.split(), "[Exposed=*] interface A { attribute bigint x; };".split())
        self.assertIn("\n  attribute bigint x;\n", laid_out)

    def test_words(self):
        self.page.open("typedef bigint A;")
        data = self.page.about("textDocument/semanticTokens/full")["data"]
        tokens = [tuple(data[at:at + 5]) for at in range(0, len(data), 5)]
        # `typedef` is a keyword, `bigint` a type of the language, `A` a type that is declared
        self.assertEqual(tokens, [(0, 0, 7, 11, 0), (0, 8, 6, 1, 8), (0, 7, 1, 1, 1)])

    def test_a_text_that_is_broken(self):
        (error,) = self.page.open("[A=*] interface B {\n  atribute long x;\n  attribute bigint y;\n};\n")
        self.assertEqual(places([error])[0][0], 1)
        (shown,) = self.page.about("textDocument/documentSymbol")
        self.assertEqual((shown["name"], shown["detail"]), ("B", "interface, with errors"))
        self.assertEqual([it["name"] for it in shown["children"]], ["y"])


class Settings(unittest.TestCase):
    def setUp(self):
        room = tempfile.TemporaryDirectory()
        self.addCleanup(room.cleanup)
        self.room = Path(room.name).resolve()
        self.old, self.new = self.room / "old", self.room / "new"
        self.below = self.new / "below"
        self.below.mkdir(parents=True)
        self.old.mkdir()
        self.page = Client()
        self.addCleanup(self.page.close)

    def settings(self, **dialects):
        """Answers a request for settings, by the last names of folders; `all_` is of no folder."""
        asked = self.page.asked.get(timeout=PATIENCE)
        self.assertEqual(asked["method"], "workspace/configuration")
        items = asked["params"]["items"]
        self.assertEqual({it["section"] for it in items}, {"weedle"})
        names = [it["scopeUri"].rpartition("/")[2] if "scopeUri" in it else "all_" for it in items]
        given = [{"dialect": dialects[name]} if name in dialects else None for name in names]
        self.page.send(id=asked["id"], result=given)
        return names

    def log(self):
        """The next message that the editor writes down."""
        while True:
            it = self.page.told.get(timeout=PATIENCE)
            if it["method"] == "window/logMessage":
                return it["params"]

    def test_none_is_said(self):
        self.page.initialize()
        (error,) = self.page.open(SHORT)
        self.assertEqual(error["message"].split("\n")[-1], SAID)
        self.assertNotIn("today's", self.page.open("broken")[0]["message"])
        with self.assertRaises(queue.Empty):
            self.page.asked.get(timeout=0.1)

    def test_options(self):
        self.page.initialize(options=TODAY)
        self.assertEqual(self.page.open(SHORT), [])

    def test_options_that_are_none(self):
        self.page.initialize(options={"dialect": "tomorrow"})
        said = self.log()
        self.assertEqual((said["type"], said["message"]), (2, "weedle: no dialect is 'tomorrow': they are 'weedle2' and 'today'"))
        self.assertEqual(len(self.page.open(SHORT)), 1)
        for options in ([], "today", {"other": 1}, {"dialect": None}):
            client = Client()
            self.addCleanup(client.close)
            client.initialize(options=options)
            self.assertEqual(len(client.open(SHORT)), 1)

    def test_settings_of_folders(self):
        self.page.initialize(self.old, self.new, workspace=ASKED)
        self.assertEqual(self.settings(new="today"), ["all_", "old", "new"])
        self.assertEqual(self.page.open(SHORT, (self.new / "a.webidl").as_uri()), [])
        self.assertEqual(self.page.open(SHORT, (self.below / "a.webidl").as_uri()), [])
        self.assertEqual(len(self.page.open(SHORT, (self.old / "a.webidl").as_uri())), 1)
        self.assertEqual(len(self.page.open(SHORT, (self.room / "newer.webidl").as_uri())), 1)
        self.assertEqual(len(self.page.open(SHORT)), 1)

    def test_a_folder_within_another(self):
        self.page.initialize(self.new, self.below, options=TODAY, workspace=ASKED)
        self.settings(below="weedle2")
        self.assertEqual(self.page.open(SHORT, (self.new / "a.webidl").as_uri()), [])
        self.assertEqual(len(self.page.open(SHORT, (self.below / "a.webidl").as_uri())), 1)

    def test_a_setting_of_no_folder_comes_before_options(self):
        self.page.initialize(self.old, options={"dialect": "weedle2"}, workspace=ASKED)
        self.settings(all_="today", old="weedle2")
        self.assertEqual(self.page.open(SHORT), [])
        self.assertEqual(len(self.page.open(SHORT, (self.old / "a.webidl").as_uri())), 1)

    def test_settings_that_come_late_and_change(self):
        uri = (self.new / "a.webidl").as_uri()
        self.page.initialize(self.new, workspace=ASKED)
        self.assertEqual(len(self.page.open(SHORT, uri)), 1)
        self.settings(new="today")
        self.assertEqual(self.page.errors(uri), [])
        self.page.note("workspace/didChangeConfiguration", settings=None)
        self.settings()
        self.assertEqual(len(self.page.errors(uri)), 1)

    def test_settings_that_the_client_tells(self):
        self.page.initialize()
        self.assertEqual(len(self.page.open(SHORT)), 1)
        self.page.note("workspace/didChangeConfiguration", settings={"weedle": TODAY})
        self.assertEqual(self.page.errors(), [])
        self.page.note("workspace/didChangeConfiguration", settings={"weedle": {}})
        self.assertEqual(len(self.page.errors()), 1)

    def test_a_setting_that_is_none(self):
        self.page.initialize(self.new, workspace=ASKED)
        self.settings(new="weedle3")
        self.assertIn("no dialect is 'weedle3'", self.log()["message"])
        self.assertEqual(len(self.page.open(SHORT, (self.new / "a.webidl").as_uri())), 1)

    def test_folders_that_change(self):
        self.page.initialize(self.old, workspace=ASKED)
        self.settings(old="today")
        uri = (self.new / "a.webidl").as_uri()
        self.assertEqual(len(self.page.open(SHORT, uri)), 1)
        added = [{"uri": self.new.as_uri(), "name": "new"}]
        self.page.note("workspace/didChangeWorkspaceFolders", event={"added": added, "removed": []})
        self.assertEqual(self.settings(old="today", new="today"), ["all_", "old", "new"])
        self.assertEqual(self.page.errors(uri), [])

    def test_it_asks_to_be_told_of_changes(self):
        self.page.initialize(self.old, workspace=FOLDERS)
        asked = self.page.asked.get(timeout=PATIENCE)
        self.assertEqual(asked["method"], "client/registerCapability")
        (it,) = asked["params"]["registrations"]
        self.assertEqual((it["method"], it["registerOptions"]), ("workspace/didChangeConfiguration", {"section": "weedle"}))
        self.settings()

    def test_an_answer_that_is_an_error(self):
        self.page.initialize(self.old, options=TODAY, workspace=ASKED)
        asked = self.page.asked.get(timeout=PATIENCE)
        self.page.send(id=asked["id"], error={"code": -32601, "message": "no"})
        self.page.send(id="weedle-settings-9", result=[{"dialect": "weedle2"}])
        self.assertEqual(self.page.open(SHORT), [])
        self.assertEqual(self.page.end(), (0, ""))

    def test_files_of_folders(self):
        (self.old / "old.webidl").write_text("interface mixin Old { attribute long x; };", encoding="utf-8")
        (self.new / "new.webidl").write_text("[Exposed=*] interface New {}; New includes Old;", encoding="utf-8")
        self.page.initialize(self.old, self.new, workspace=ASKED)
        self.settings(new="today")
        found = self.page.ask("workspace/symbol", query="New")
        self.assertEqual([it["name"] for it in found], ["New", "New includes Old"])
        uri = (self.old / "page.webidl").as_uri()
        self.page.open("interface Page { attribute New it; };", uri)
        found = self.page.at("textDocument/definition", 0, 29, uri)
        self.assertEqual([(it["uri"].rpartition("/")[2], *places([it])[0]) for it in found], [("new.webidl", 0, 22, 0, 25)])


if __name__ == "__main__":
    unittest.main()
