"""A session with the language server: how it begins and ends, what it does with changes, with what is cancelled, with
what fails, and with what is no message.

Expected is what the Language Server Protocol 3.17 says, and places that were counted by hand.
"""

import json
import subprocess
import sys
import tempfile
import unittest
from pathlib import Path

from lsp_client import PAGE, Client, environment, places, range_, where
import weedle

PARSE_ERROR, INVALID_REQUEST, METHOD_NOT_FOUND, INVALID_PARAMS, INTERNAL_ERROR = -32700, -32600, -32601, -32602, -32603
NOT_INITIALIZED, CANCELLED, CONTENT_MODIFIED = -32002, -32800, -32801
# A server with requests that fail, sleep, and run until they are cancelled.
WITH_FAILURES = """
import sys, time
from weedle.lsp import features, main, server
from weedle.lsp.diagnostics import diagnostics

def spin(session, params):
    while True:
        session.workspace.check()
        time.sleep(0.001)

def broken(session, params):
    raise KeyError("broken")

def read_on(session, params):
    check = session.check_of(session.source(params))
    while True:
        check()
        time.sleep(0.001)

features.REQUESTS.update({
    "test/read": read_on,
    "textDocument/hover": lambda *_: 1 // 0, "test/spin": spin, "test/object": lambda *_: object(),
    "test/sleep": lambda *_: time.sleep(0.5), "test/print": lambda *_: print("stray"),
})
features.NOTIFICATIONS["test/broken"] = broken
server.diagnostics = lambda source: 1 // 0 if b"zero" in source.data else diagnostics(source)
sys.exit(main())
"""


class Session(unittest.TestCase):
    def client(self, *words, **more):
        client = Client(*words, **more)
        self.addCleanup(client.close)
        return client


class Life(Session):
    def test_it_begins_and_ends(self):
        client = self.client()
        found = client.initialize()
        self.assertEqual(found["serverInfo"], {"name": "weedle", "version": weedle.__version__})
        can = found["capabilities"]
        self.assertEqual((can["positionEncoding"], can["textDocumentSync"]["change"]), ("utf-16", 2))
        self.assertTrue(can["renameProvider"]["prepareProvider"])
        self.assertEqual(client.end(), (0, ""))

    def test_what_comes_too_early_or_too_late(self):
        client = self.client()
        self.assertEqual(client.fail("textDocument/hover", **where(0, 0))[0], NOT_INITIALIZED)
        client.initialize()
        self.assertEqual(client.fail("initialize", capabilities={})[0], INVALID_REQUEST)
        client.ask("shutdown")
        self.assertEqual(client.fail("textDocument/hover", **where(0, 0))[0], INVALID_REQUEST)
        client.note("exit")
        self.assertEqual(client.wait(), (0, ""))

    def test_an_end_without_a_shutdown(self):
        client = self.client()
        client.initialize()
        client.note("exit")
        self.assertEqual(client.wait(), (1, ""))

    def test_a_client_that_is_gone(self):
        client = self.client()
        client.initialize()
        client.server.stdin.close()
        self.assertEqual(client.wait(), (1, ""))

    def test_what_it_does_not_know(self):
        client = self.client()
        client.initialize()
        self.assertEqual(client.fail("textDocument/unknown")[0], METHOD_NOT_FOUND)
        client.note("textDocument/unknown")
        client.note("$/setTrace", value="off")
        client.send(id="weedle-files", result=None)
        self.assertEqual(client.end(), (0, ""))

    def test_arguments(self):
        for words, status in ((["--stdio"], 1), (["--tcp"], 5)):
            done = subprocess.run(
                [sys.executable, "-m", "weedle", "lsp", *words], stdin=subprocess.DEVNULL, capture_output=True, check=False,
                env=environment(),
            )
            self.assertEqual((done.returncode, done.stdout), (status, b""), done.stderr)

    def test_a_file_of_that_name(self):
        with tempfile.TemporaryDirectory() as room:
            Path(room, "lsp").write_text("A includes B;", encoding="utf-8")
            done = subprocess.run(
                [sys.executable, "-m", "weedle", "./lsp"], capture_output=True, check=False, cwd=room,
                env=environment(),
            )
        self.assertEqual((done.returncode, done.stdout), (0, b"1 file, 0 refused\n"))


class Messages(Session):
    def test_what_is_no_message(self):
        client = self.client()
        client.initialize()
        for body in (b"{", b"[]", b'{"jsonrpc":"2.0","id":[],"method":"shutdown"}', b'{"method":5}', b"\xff"):
            client.write(b"Content-Length: %d\r\n\r\n%b" % (len(body), body))
            self.assertEqual(client.answer(None)["error"]["code"], PARSE_ERROR)
        client.write(b"Content-Type: text/plain\r\n\r\n")
        self.assertEqual(client.answer(None)["error"]["code"], PARSE_ERROR)
        self.assertEqual(client.end(), (0, ""))

    def test_headers(self):
        client = self.client()
        client.initialize()
        body = b'{"jsonrpc":"2.0","id":"a","method":"workspace/symbol","params":{"query":"x"}}'
        client.write(b"Content-Type: x\r\ncontent-length:%d\r\n\r\n" % len(body))
        client.write(body[:10])
        client.write(body[10:])
        self.assertEqual(client.answer("a")["result"], [])
        self.assertEqual(client.end(), (0, ""))

    def test_several_at_once(self):
        client = self.client()
        client.initialize()
        one = json.dumps({"jsonrpc": "2.0", "id": 70, "method": "workspace/symbol", "params": {"query": ""}}).encode()
        other = one.replace(b"70", b"71")
        client.write(b"".join(b"Content-Length: %d\r\n\r\n%b" % (len(it), it) for it in (one, other)))
        self.assertEqual((client.answer(71)["result"], client.answer(70)["result"]), ([], []))


class Changes(Session):
    def setUp(self):
        self.page = self.client()

    def text(self):
        """The text that the server has, which it lays out as one that it doesn't have yet."""
        (found,) = self.page.ask("workspace/symbol", query="")
        return found["name"], places([found])[0]

    def test_incremental(self):
        self.page.initialize()
        self.assertEqual(self.page.open("typedef long A;\n"), [])
        self.assertEqual(self.text(), ("A", (0, 13, 0, 14)))
        self.assertEqual(self.page.change((0, 13, 0, 14, "Other"), (0, 8, 0, 12, "sequence<long>")), [])
        self.assertEqual(self.text(), ("Other", (0, 23, 0, 28)))
        self.assertEqual(self.page.change((0, 0, 0, 0, "\n\n"), (2, 22, 2, 23, "\n")), [])
        self.assertEqual(self.text(), ("Other", (3, 0, 3, 5)))
        self.assertEqual(self.page.change("typedef long B;"), [])
        self.assertEqual(self.text(), ("B", (0, 13, 0, 14)))
        self.assertEqual(self.page.change((0, 0, 9, 9, "typedef long C;")), [])
        self.assertEqual(self.text(), ("C", (0, 13, 0, 14)))

    def test_utf_16(self):
        self.page.initialize()
        self.page.open("/* \u00e9\U0001f600 */ typedef long A;")
        self.assertEqual(self.text(), ("A", (0, 23, 0, 24)))
        self.assertEqual(self.page.change((0, 3, 0, 6, ""), (0, 20, 0, 21, "B")), [])
        self.assertEqual(self.text(), ("B", (0, 20, 0, 21)))

    def test_within_a_pair_of_utf_16(self):
        self.page.initialize()
        self.page.open("/* \U0001f600 */ typedef long A;")
        self.assertEqual(self.page.change((0, 4, 0, 5, "x")), [])
        self.assertEqual(self.text(), ("A", (0, 21, 0, 22)))

    def test_utf_8(self):
        found = self.page.initialize(encodings=["utf-7", "utf-8", "utf-16"])
        self.assertEqual(found["capabilities"]["positionEncoding"], "utf-8")
        self.page.open("/* \u00e9\U0001f600 */ typedef long A;")
        self.assertEqual(self.text(), ("A", (0, 26, 0, 27)))
        self.assertEqual(self.page.change((0, 3, 0, 9, ""), (0, 20, 0, 21, "B")), [])
        self.assertEqual(self.text(), ("B", (0, 20, 0, 21)))

    def test_utf_32(self):
        found = self.page.initialize(encodings=["utf-32"])
        self.assertEqual(found["capabilities"]["positionEncoding"], "utf-32")
        self.page.open("/* \u00e9\U0001f600 */ typedef long A;")
        self.assertEqual(self.text(), ("A", (0, 22, 0, 23)))

    def test_lines(self):
        # a CR ends a line too, alone or before an LF
        self.page.initialize()
        self.page.open("// a\r\n\r\r\n\ntypedef long A;\r\n")
        self.assertEqual(self.text(), ("A", (4, 13, 4, 14)))
        self.assertEqual(len(self.page.change((4, 14, 4, 99, ""))), 1)
        self.assertEqual(self.page.change((4, 13, 5, 0, "B;\r\n")), [])
        self.assertEqual(self.text(), ("B", (4, 13, 4, 14)))

    def test_half_of_a_pair(self):
        self.page.initialize()
        self.assertEqual(self.page.open("// \ud83d\ntypedef long A;"), [])
        self.assertEqual(self.text(), ("A", (1, 13, 1, 14)))

    def test_a_text_that_is_not_open(self):
        self.page.initialize()
        self.page.version = 3
        self.page.note("textDocument/didChange", textDocument={"uri": PAGE, "version": 3}, contentChanges=[{"text": "x"}])
        self.assertIn("isn't open", self.page.told.get(timeout=60)["params"]["message"])
        self.assertEqual(self.page.fail("textDocument/hover", **where(0, 0))[0], INVALID_PARAMS)

    def test_a_text_that_is_closed(self):
        self.page.initialize()
        self.assertEqual(len(self.page.open("typedef long")), 1)
        self.page.note("textDocument/didClose", textDocument={"uri": PAGE})
        self.assertEqual(self.page.errors(), [])
        self.assertEqual(self.page.ask("workspace/symbol", query=""), [])

    def test_keys_one_after_another(self):
        # of changes that wait the errors of the last one are told, and no request sees another text
        self.page.initialize()
        self.page.open("")
        text = "typedef long Other;"
        for at, letter in enumerate(text):
            self.page.version += 1
            self.page.note(
                "textDocument/didChange", textDocument={"uri": PAGE, "version": self.page.version},
                contentChanges=[{"text": letter, "range": range_(0, at, 0, at)}],
            )
        self.assertEqual(self.page.errors(), [])
        self.assertEqual(self.text(), ("Other", (0, 13, 0, 18)))


class Failures(Session):
    def setUp(self):
        self.page = self.client("-c", WITH_FAILURES)
        self.page.initialize()
        self.page.open("typedef long A;")

    def test_a_request_that_fails_ends_nothing(self):
        code, message = self.page.fail("textDocument/hover", **where(0, 0))
        self.assertEqual((code, message.split(":")[:2]), (INTERNAL_ERROR, ["textDocument/hover", " ZeroDivisionError"]))
        self.assertEqual(self.page.fail("test/object")[0], INTERNAL_ERROR)
        self.assertEqual(self.page.fail("textDocument/definition")[0], INTERNAL_ERROR)
        self.assertEqual(len(self.page.ask("workspace/symbol", query="A")), 1)
        status, said = self.page.end()
        self.assertEqual((status, "ZeroDivisionError" in said), (0, True))

    def test_a_notification_that_fails_ends_nothing(self):
        self.page.note("test/broken")
        self.assertIn("KeyError", self.page.told.get(timeout=60)["params"]["message"])
        self.assertEqual(self.page.end()[0], 0)

    def test_errors_that_are_not_known(self):
        (error,) = self.page.change("typedef zero A;")
        self.assertEqual((error["severity"], error["message"].split(":")[:2]), (2, ["not checked", " ZeroDivisionError"]))
        self.assertEqual(self.page.change("typedef long A;"), [])

    def test_what_is_printed_by_mistake(self):
        self.page.ask("test/print")
        status, said = self.page.end()
        self.assertEqual((status, said), (0, "stray\n"))

    def test_a_request_that_waits_is_cancelled(self):
        first, waits, last = (self.page.start(it, query="") for it in ("test/sleep", "workspace/symbol", "workspace/symbol"))
        self.page.note("$/cancelRequest", id=waits)
        self.assertEqual(self.page.answer(waits)["error"]["code"], CANCELLED)
        self.assertEqual(self.page.answer(first)["result"], None)
        self.assertEqual(len(self.page.answer(last)["result"]), 1)

    def test_a_request_that_runs_is_cancelled(self):
        number = self.page.start("test/spin")
        self.page.note("$/cancelRequest", id=number)
        self.assertEqual(self.page.answer(number)["error"]["code"], CANCELLED)
        self.assertEqual(len(self.page.ask("workspace/symbol", query="")), 1)

    def test_a_request_about_a_text_that_changes(self):
        number = self.page.start("test/read", textDocument={"uri": PAGE})
        other = {"uri": "file:///other.webidl", "version": 1}
        self.page.note("textDocument/didChange", textDocument=other, contentChanges=[{"text": ""}])
        with self.page.is_there:
            self.assertFalse(self.page.is_there.wait_for(lambda: number in self.page.answers, 0.2))
        self.page.change("typedef long C;")
        self.assertEqual(self.page.answer(number)["error"]["code"], CONTENT_MODIFIED)

    def test_what_is_cancelled_and_was_answered(self):
        self.page.ask("workspace/symbol", query="")
        self.page.note("$/cancelRequest", id=self.page.count)
        self.page.note("$/cancelRequest", id=99)
        self.page.note("$/cancelRequest", id=[1])
        self.page.note("$/cancelRequest")
        self.assertEqual(len(self.page.ask("workspace/symbol", query="")), 1)


if __name__ == "__main__":
    unittest.main()
