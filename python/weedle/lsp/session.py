"""What the server knows of its client, and of the texts: what all features share."""

from __future__ import annotations

from pathlib import Path
from typing import Any, Callable, Dict, List, Optional, Tuple

from weedle._dialect import GRAMMARS, Dialect
from weedle.lsp.positions import UNITS, USUAL
from weedle.lsp.protocol import Check, Json, nothing
from weedle.lsp.sources import Source
from weedle.lsp.workspace import SUFFIXES, Workspace, path_of


def within(given: Any, *names: str) -> Any:
    """What is in objects in one another, by their names; None where one isn't there."""
    for name in names:
        given = given.get(name) if isinstance(given, dict) else None
    return given


#: The setting `weedle.dialect` of a folder, or of all texts: the section that is asked for, and its key.
SECTION, DIALECT = "weedle", "dialect"


class Session:
    """A client, and its texts."""

    def __init__(
        self, check: Check = nothing, check_text: Callable[[str], None] = lambda uri: None,
    ) -> None:
        self.workspace = Workspace(check)
        # raises where no answer is wanted any more, or a change of the text waits
        self._check_text = check_text
        #: Whether symbols are shown as a tree, and whether the client tells which files change.
        self.has_tree = self.watches_files = False
        #: Whether it can be asked for settings, and be asked to tell where these change.
        self.has_settings = self.watches_settings = False
        #: Whether settings are to be asked for, and what is to be said of those that it gave.
        self.wants_settings = False
        self.complaints: List[str] = []
        self._changed: List[str] = []

    def initialize(self, params: Json) -> None:
        """Takes what the client says of itself."""
        client = params.get("capabilities") or {}
        offered = within(client, "general", "positionEncodings") or [USUAL]
        self.workspace.encoding = next((it for it in offered if it in UNITS), USUAL)
        self.has_tree = bool(within(
            client, "textDocument", "documentSymbol", "hierarchicalDocumentSymbolSupport",
        ))
        self.watches_files = bool(within(
            client, "workspace", "didChangeWatchedFiles", "dynamicRegistration",
        ))
        self.has_settings = bool(within(client, "workspace", "configuration"))
        self.watches_settings = bool(within(
            client, "workspace", "didChangeConfiguration", "dynamicRegistration",
        ))
        given = self.dialect(within(params, "initializationOptions", DIALECT))
        self.workspace.dialect = given or "weedle2"
        folders = [it["uri"] for it in params.get("workspaceFolders") or []]
        if not folders and params.get("rootUri"):
            folders = [params["rootUri"]]
        self.workspace.folders = [path_of(it) for it in folders if it.startswith("file:")]

    def watches(self) -> List[Json]:
        """What the client is asked to watch: files, and settings."""
        found: List[Json] = []
        if self.watches_files:
            watchers = [{"globPattern": f"**/*{it}"} for it in SUFFIXES]
            found.append({
                "id": "files", "method": "workspace/didChangeWatchedFiles",
                "registerOptions": {"watchers": watchers},
            })
        if self.watches_settings:
            found.append({
                "id": "settings", "method": "workspace/didChangeConfiguration",
                "registerOptions": {"section": SECTION},
            })
        return found

    def dialect(self, given: Any) -> Optional[Dialect]:
        """The dialect that a setting says; None where it says none."""
        if given is None:
            return None
        found = GRAMMARS.get(given) if isinstance(given, str) else None
        if not found:
            names = " and ".join(map(repr, GRAMMARS))
            self.complaints.append(f"weedle: no dialect is {given!r}: they are {names}")
        return found.name if found else None

    def settings(self) -> Tuple[List[str], List[Json]]:
        """The folders whose settings are asked for, and what is asked: first what is said of no folder."""
        folders = ["", *self.workspace.folders]
        scopes = [{"scopeUri": Path(it).as_uri()} if it else {} for it in folders]
        return folders, [{**it, "section": SECTION} for it in scopes]

    def take_settings(self, folders: List[str], given: Any) -> None:
        """Takes what the client says of some folders: in a list, one behind another."""
        found: Dict[str, Dialect] = {}
        for folder, value in zip(folders, given if isinstance(given, list) else []):
            dialect = self.dialect(within(value, DIALECT))
            if dialect:
                found[folder] = dialect
        for uri in self.workspace.use(found):
            self.has_changed(uri)

    def settings_changed(self, given: Any) -> None:
        """Settings were changed: they are asked for again, or else are what the client says with it."""
        if self.has_settings:
            self.wants_settings = True
        else:
            self.take_settings([""], [within(given, SECTION)])

    def source(self, params: Json) -> Source:
        """The text that a request is about."""
        return self.workspace.document(params["textDocument"]["uri"]).source

    def check_of(self, source: Source) -> Check:
        """A check for what is worked out of a text alone."""
        return lambda: self._check_text(source.uri)

    def has_changed(self, uri: str) -> None:
        """Has the errors of a text told."""
        self._changed.append(uri)

    def take_changed(self) -> List[str]:
        """The texts that were changed since this was asked last."""
        found, self._changed = self._changed, []
        return found
