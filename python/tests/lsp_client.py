"""A client of the language server, for its tests: it starts the server, and speaks to it over its input and output."""

import json
import os
import queue
import subprocess
import sys
import threading

from support import HOME

PAGE = "file:///page.webidl"
# No answer takes so many seconds.
PATIENCE = 60


def environment():
    """The variables, with the one that names the package's folder."""
    return {**os.environ, "PYTHONPATH": str(HOME)}


class Client:
    """A server, and what is said to it."""

    def __init__(self, *words, **more):
        """Starts it: `python -m weedle lsp`, or Python with other words."""
        self.server = subprocess.Popen(
            [sys.executable, *(words or ("-m", "weedle", "lsp"))], stdin=subprocess.PIPE, stdout=subprocess.PIPE,
            stderr=subprocess.PIPE, env=environment(), **more,
        )
        self.count, self.version = 0, 0
        self.answers, self.told, self.asked = {}, queue.Queue(), queue.Queue()
        self.is_there = threading.Condition()
        self.said_wrong = []
        self.threads = [threading.Thread(target=it, daemon=True) for it in (self.listen, self.drain)]
        for it in self.threads:
            it.start()

    def listen(self):
        """Reads all that the server says."""
        out = self.server.stdout
        while True:
            header = out.readline()
            if not header:
                return
            assert header.startswith(b"Content-Length: "), header
            assert out.readline() == b"\r\n"
            message = json.loads(out.read(int(header.split(b":")[1])))
            assert message["jsonrpc"] == "2.0"
            if "method" in message:
                (self.asked if "id" in message else self.told).put(message)
            else:
                with self.is_there:
                    self.answers[message["id"]] = message
                    self.is_there.notify_all()

    def drain(self):
        """Reads what it says on standard error."""
        self.said_wrong += self.server.stderr

    def write(self, data):
        """Writes bytes."""
        self.server.stdin.write(data)
        self.server.stdin.flush()

    def send(self, **message):
        """Sends a message."""
        body = json.dumps({"jsonrpc": "2.0", **message}).encode()
        self.write(b"Content-Length: %d\r\n\r\n%b" % (len(body), body))

    def note(self, method, **params):
        """Sends what asks for no answer."""
        self.send(method=method, params=params)

    def start(self, method, **params):
        """Sends a request, and doesn't wait."""
        self.count += 1
        self.send(id=self.count, method=method, params=params)
        return self.count

    def answer(self, number):
        """The whole answer of a request."""
        with self.is_there:
            assert self.is_there.wait_for(lambda: number in self.answers, PATIENCE), self.said_wrong
            return self.answers.pop(number)

    def ask(self, method, **params):
        """The result of a request."""
        found = self.answer(self.start(method, **params))
        assert "error" not in found, found["error"]
        return found["result"]

    def fail(self, method, **params):
        """The code and the message of a request that has no result."""
        found = self.answer(self.start(method, **params))
        assert "result" not in found, found["result"]
        return found["error"]["code"], found["error"]["message"]

    def initialize(self, *folders, encodings=None, options=None, **capabilities):
        """Begins: what the server can."""
        if encodings:
            capabilities["general"] = {"positionEncodings": encodings}
        shown = [{"uri": it.as_uri(), "name": it.name} for it in folders] or None
        more = {} if options is None else {"initializationOptions": options}
        found = self.ask("initialize", processId=None, capabilities=capabilities, workspaceFolders=shown, **more)
        self.note("initialized")
        return found

    def open(self, text, uri=PAGE):
        """Opens a text: its errors."""
        self.version += 1
        self.note("textDocument/didOpen", textDocument={
            "uri": uri, "languageId": "webidl", "version": self.version, "text": text,
        })
        return self.errors(uri)

    def change(self, *changes, uri=PAGE):
        """Changes a text: its errors. A change is a text, or a range and a text."""
        self.version += 1
        given = [
            {"text": it} if isinstance(it, str) else {"range": range_(*it[:4]), "text": it[4]} for it in changes
        ]
        self.note("textDocument/didChange", textDocument={"uri": uri, "version": self.version}, contentChanges=given)
        return self.errors(uri)

    def errors(self, uri=PAGE):
        """The errors of the last version of a text."""
        while True:
            it = self.told.get(timeout=PATIENCE)["params"]
            if it.get("uri") == uri and it.get("version") in (None, self.version):
                return it["diagnostics"]

    def at(self, method, line, character, uri=PAGE, **more):
        """The result of a request about a place."""
        return self.ask(method, **where(line, character, uri), **more)

    def about(self, method, uri=PAGE, **more):
        """The result of a request about a text."""
        return self.ask(method, textDocument={"uri": uri}, **more)

    def end(self):
        """Shuts it down: its status, and what it said on standard error."""
        self.ask("shutdown")
        self.note("exit")
        return self.wait()

    def wait(self):
        """The status of a server that ends, and what it said on standard error."""
        status = self.server.wait(PATIENCE)
        for it in self.threads:
            it.join(PATIENCE)
        self.close()
        return status, b"".join(self.said_wrong).decode()

    def close(self):
        """Ends a server that runs yet."""
        self.server.kill()
        self.server.wait()
        for it in self.threads:
            it.join(PATIENCE)
        for it in (self.server.stdin, self.server.stdout, self.server.stderr):
            it.close()


def range_(line, character, last, behind):
    """A range, as messages have it."""
    return {"start": {"line": line, "character": character}, "end": {"line": last, "character": behind}}


def where(line, character, uri=PAGE):
    """A place in a text, as messages have it."""
    return {"textDocument": {"uri": uri}, "position": {"line": line, "character": character}}


def places(found):
    """Ranges, or what has them, as the four numbers of each."""
    given = [it.get("range", it) if "location" not in it else it["location"]["range"] for it in found]
    return [(*it["start"].values(), *it["end"].values()) for it in given]
