"""The server: it takes messages one by one, and answers each request.

A thread of its own reads what comes, so that a request that waits, or runs, is cancelled at once.
Errors of a text are told as soon as nothing that changes it waits.
"""

from __future__ import annotations

import sys
import threading
import traceback
from collections import deque
from typing import Any, BinaryIO, Deque, List, Set, Tuple

from weedle.lsp.diagnostics import diagnostics, unchecked
from weedle.lsp.features import NOTIFICATIONS, REQUESTS, capabilities
from weedle.lsp.framing import Malformed, Message, packed, read_message
from weedle.lsp.protocol import Cancelled, Code, Fault, Json, Outdated
from weedle.lsp.session import Session, within
from weedle.lsp.workspace import path_of

CHANGES = "textDocument/didChange"
# How bad a message is that the editor writes down.
ERROR, WARNING = 1, 2
END: Message = {"method": "exit"}


class Inbox:
    """The messages that wait, and the requests that aren't wanted any more."""

    def __init__(self, stream: BinaryIO) -> None:
        self._stream = stream
        self._waiting: Deque[Message] = deque()
        self._is_filled = threading.Condition()
        self._asked: Set[Any] = set()
        self.cancelled: Set[Any] = set()

    def start(self) -> None:
        """Begins to read."""
        threading.Thread(target=self._fill, daemon=True).start()

    def _fill(self) -> None:
        while True:
            try:
                message = read_message(self._stream)
            except Malformed as fault:
                message = {"malformed": str(fault)}
            except Exception:
                message = None  # the stream was closed, or memory ran out
            self._take(message or END)
            if not message or message.get("method") == END["method"]:
                return

    def _take(self, message: Message) -> None:
        with self._is_filled:
            if message.get("method") == "$/cancelRequest":
                number = within(message, "params", "id")
                if isinstance(number, (int, str)) and number in self._asked:
                    self.cancelled.add(number)
                return
            if "id" in message and "method" in message:
                self._asked.add(message["id"])
            self._waiting.append(message)
            self._is_filled.notify()

    def next(self) -> Message:
        """The next message; it waits for one."""
        with self._is_filled:
            self._is_filled.wait_for(lambda: self._waiting)
            return self._waiting.popleft()

    def waits(self, method: str, uri: str = "") -> bool:
        """Whether such a message waits, about a text or about any."""
        with self._is_filled:
            return any(
                it.get("method") == method
                and uri in ("", within(it, "params", "textDocument", "uri")) for it in self._waiting
            )

    def done(self, number: Any) -> None:
        """A request is answered."""
        with self._is_filled:
            self._asked.discard(number)
            self.cancelled.discard(number)


class Server:
    """A server over two streams."""

    def __init__(self, given: BinaryIO, taken: BinaryIO) -> None:
        self.inbox, self.taken = Inbox(given), taken
        self.session = Session(self.check, self.check_text)
        self.is_initialized = self.is_shut_down = False
        # the texts whose errors aren't told yet
        self.unsaid: List[str] = []
        self.running: Any = None
        # the request for settings that was sent last, and the folders that it is about
        self.asked: Tuple[str, List[str]] = "", []
        self.count = 0

    def check(self) -> None:
        """Ends the request that runs where it isn't wanted any more."""
        if self.running is not None and self.running in self.inbox.cancelled:
            raise Cancelled()

    def check_text(self, uri: str) -> None:
        """The same, and where a change of the text waits: so its errors are reported the sooner."""
        self.check()
        if self.inbox.waits(CHANGES, uri):
            raise Outdated()

    def run(self) -> int:
        """Answers until the client ends it: the status of the program."""
        self.inbox.start()
        while True:
            if self.unsaid and not self.inbox.waits(CHANGES):
                self.tell_errors(self.unsaid.pop(0))
                continue
            message = self.inbox.next()
            if message.get("method") == END["method"]:
                return 0 if self.is_shut_down else 1
            self.take(message)

    def take(self, message: Message) -> None:
        """Does what a message asks for. No failure ends the server."""
        if "malformed" in message:
            self.write(failure(None, Fault(message["malformed"], Code.PARSE_ERROR)))
        elif "method" not in message:
            self.take_answer(message)
        elif "id" in message:
            self.answer(message)
        else:
            self.note(message)

    def answer(self, message: Message) -> None:
        """Answers a request."""
        number = self.running = message["id"]
        try:
            self.check()
            result = self.result(message["method"], message.get("params") or {})
            self.check()
            answer = packed({"id": number, "result": result})
        except Fault as fault:
            answer = failure(number, fault)
        except Exception as fault:
            traceback.print_exc(file=sys.stderr)
            said = f"{message['method']}: {type(fault).__name__}: {fault}"
            answer = failure(number, Fault(said, Code.INTERNAL_ERROR))
        finally:
            self.running = None
            self.inbox.done(number)
        self.write(answer)

    def write(self, data: bytes) -> None:
        """Writes a message."""
        self.taken.write(data)
        self.taken.flush()

    def result(self, method: str, params: Json) -> Any:
        """The result of a request."""
        if method == "initialize":
            return self.initialize(params)
        if not self.is_initialized:
            raise Fault("initialize comes first", Code.NOT_INITIALIZED)
        if self.is_shut_down:
            raise Fault("the server was shut down", Code.INVALID_REQUEST)
        if method == "shutdown":
            self.is_shut_down = True
            return None
        if method not in REQUESTS:
            raise Fault(f"no request {method}", Code.METHOD_NOT_FOUND)
        return REQUESTS[method](self.session, params)

    def initialize(self, params: Json) -> Json:
        """Says what the server can, and takes what the client says of itself."""
        if self.is_initialized:
            raise Fault("initialize comes once", Code.INVALID_REQUEST)
        self.session.initialize(params)
        self.is_initialized = True
        self.complain()
        return capabilities(self.session)

    def note(self, message: Message) -> None:
        """Takes what asks for no answer."""
        method, params = message["method"], message.get("params") or {}
        if method == "initialized":
            self.ask_for_watches()
            self.session.wants_settings = self.session.has_settings
            self.ask_for_settings()
        if method not in NOTIFICATIONS or not self.is_initialized or self.is_shut_down:
            return
        try:
            NOTIFICATIONS[method](self.session, params)
        except Exception as fault:
            traceback.print_exc(file=sys.stderr)
            self.log(ERROR, f"weedle: {method}: {type(fault).__name__}: {fault}")
        self.ask_for_settings()
        self.take_changes()

    def take_changes(self) -> None:
        """Has the errors of the texts told that are others now."""
        self.unsaid += (it for it in self.session.take_changed() if it not in self.unsaid)
        self.complain()

    def complain(self) -> None:
        """Says what is wrong with settings."""
        complaints, self.session.complaints = self.session.complaints, []
        for it in complaints:
            self.log(WARNING, it)

    def log(self, level: int, said: str) -> None:
        """Has the editor write a message down."""
        params = {"type": level, "message": said}
        self.write(packed({"method": "window/logMessage", "params": params}))

    def take_answer(self, message: Message) -> None:
        """Takes an answer to what the server asked: the settings that it asked for last."""
        number, folders = self.asked
        if number and message.get("id") == number:
            self.asked = "", []
            if "result" in message:
                self.session.take_settings(folders, message["result"])
                self.take_changes()

    def tell_errors(self, uri: str) -> None:
        """Tells the errors of a text, or that it has none where it was closed."""
        document = self.session.workspace.documents.get(path_of(uri))
        params: Json = {"uri": uri, "diagnostics": []}
        if document:
            try:
                params["diagnostics"] = diagnostics(document.source)
            except Exception as fault:
                traceback.print_exc(file=sys.stderr)
                params["diagnostics"] = [unchecked(fault)]
            if document.version is not None:
                params["version"] = document.version
        self.write(packed({"method": "textDocument/publishDiagnostics", "params": params}))

    def ask_for_watches(self) -> None:
        """Asks the client to tell what changes in the folders and the settings, where it offers that."""
        watches = self.session.watches()
        if watches:
            self.write(packed({
                "id": "weedle-files", "method": "client/registerCapability",
                "params": {"registrations": watches},
            }))

    def ask_for_settings(self) -> None:
        """Asks the client for the dialects of folders, where these may be others than they were."""
        if not self.session.wants_settings:
            return
        self.session.wants_settings = False
        folders, items = self.session.settings()
        self.count += 1
        self.asked = f"weedle-settings-{self.count}", folders
        self.write(packed({
            "id": self.asked[0], "method": "workspace/configuration", "params": {"items": items},
        }))


def failure(number: Any, fault: Fault) -> bytes:
    """The answer of a request that has no result."""
    return packed({"id": number, "error": {"code": fault.code, "message": fault.message}})
