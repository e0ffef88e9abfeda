"""The requests and the notifications that the server knows, by their names."""

from __future__ import annotations

from typing import Any, Callable, Dict, List, Optional

import weedle
from weedle.lsp import (
    completion, diagnostics, layout, navigation, outline, renaming, structure, tokens,
)
from weedle.lsp.protocol import Json
from weedle.lsp.session import Session
from weedle.lsp.workspace import path_of

Request = Callable[[Session, Json], Any]
Notification = Callable[[Session, Json], None]

INCREMENTAL = 2


def capabilities(session: Session) -> Json:
    """What the server can, for its client."""
    return {
        "capabilities": {
            "positionEncoding": session.workspace.encoding,
            "textDocumentSync": {"openClose": True, "change": INCREMENTAL, "save": True},
            "codeActionProvider": {"codeActionKinds": ["quickfix"]},
            "completionProvider": {"triggerCharacters": ["[", "(", "<", "="]},
            "definitionProvider": True, "documentHighlightProvider": True,
            "documentFormattingProvider": True, "documentRangeFormattingProvider": True,
            "documentSymbolProvider": True, "foldingRangeProvider": True, "hoverProvider": True,
            "referencesProvider": True, "renameProvider": {"prepareProvider": True},
            "selectionRangeProvider": True,
            "semanticTokensProvider": {"legend": tokens.LEGEND, "full": True, "range": True},
            "workspaceSymbolProvider": True,
            "workspace": {"workspaceFolders": {"supported": True, "changeNotifications": True}},
        },
        "serverInfo": {"name": "weedle", "version": weedle.__version__},
    }


def did_open(session: Session, params: Json) -> None:
    """A text was opened."""
    it = params["textDocument"]
    session.workspace.open(it["uri"], it.get("version"), it["text"])
    session.has_changed(it["uri"])


def did_change(session: Session, params: Json) -> None:
    """A text was changed."""
    it = params["textDocument"]
    session.workspace.change(it["uri"], it.get("version"), params["contentChanges"])
    session.has_changed(it["uri"])


def did_close(session: Session, params: Json) -> None:
    """A text was closed."""
    uri = params["textDocument"]["uri"]
    session.workspace.close(uri)
    session.has_changed(uri)


def files_changed(session: Session, params: Json) -> None:
    """Files of the folders were changed, made or removed."""
    session.workspace.forget()


def folders_changed(session: Session, params: Json) -> None:
    """The editor has other folders."""
    event, workspace = params["event"], session.workspace
    removed = {path_of(it["uri"]) for it in event.get("removed") or []}
    added = [path_of(it["uri"]) for it in event.get("added") or []]
    workspace.folders = [it for it in workspace.folders if it not in removed] + added
    workspace.forget()
    session.wants_settings = session.has_settings


def settings_changed(session: Session, params: Json) -> None:
    """Settings of the editor were changed."""
    session.settings_changed(params.get("settings"))


def code_action(session: Session, params: Json) -> List[Json]:
    """What fixes an error."""
    source = session.source(params)
    only = (params.get("context") or {}).get("only")
    if only and not any(it in ("", "quickfix") for it in only):
        return []
    return diagnostics.actions(source, source.lines.span(params["range"]))


def completion_(session: Session, params: Json) -> List[Json]:
    """What goes on at a place."""
    source = session.source(params)
    return completion.completions(session.workspace, source, source.place(params["position"]))


def definition(session: Session, params: Json) -> List[Json]:
    """Where something is defined."""
    source = session.source(params)
    return navigation.definition(session.workspace, source, source.place(params["position"]))


def references(session: Session, params: Json) -> List[Json]:
    """Where something is spoken of."""
    source = session.source(params)
    place = source.place(params["position"])
    is_whole = bool((params.get("context") or {}).get("includeDeclaration", True))
    return navigation.references(session.workspace, source, place, is_whole)


def highlight(session: Session, params: Json) -> List[Json]:
    """Where something is spoken of in the text."""
    source = session.source(params)
    return navigation.highlights(source, source.place(params["position"]))


def hover(session: Session, params: Json) -> Optional[Json]:
    """What is said of a name."""
    source = session.source(params)
    return navigation.hover(session.workspace, source, source.place(params["position"]))


def prepare_rename(session: Session, params: Json) -> Optional[Json]:
    """What would be renamed."""
    source = session.source(params)
    return renaming.prepare(source, source.place(params["position"]))


def rename(session: Session, params: Json) -> Json:
    """The changes of a rename."""
    source = session.source(params)
    place = source.place(params["position"])
    return renaming.rename(session.workspace, source, place, params["newName"])


def document_symbol(session: Session, params: Json) -> List[Json]:
    """The outline of a text."""
    shown = outline.outline if session.has_tree else outline.flat_outline
    source = session.source(params)
    return shown(source, session.check_of(source))


def workspace_symbol(session: Session, params: Json) -> List[Json]:
    """The symbols of all texts that have the letters of a query."""
    return outline.matching(session.workspace, params.get("query") or "")


def folding_range(session: Session, params: Json) -> List[Json]:
    """What can be folded."""
    return structure.folds(session.source(params))


def selection_range(session: Session, params: Json) -> List[Json]:
    """What is around some places."""
    source = session.source(params)
    return structure.selections(source, [source.place(it) for it in params["positions"]])


def formatting(session: Session, params: Json) -> List[Json]:
    """The changes that format a text."""
    return layout.layout(session.source(params))


def range_formatting(session: Session, params: Json) -> List[Json]:
    """The changes that format the definitions of a part of a text."""
    source = session.source(params)
    return layout.layout_of(source, source.lines.span(params["range"]))


def semantic_tokens(session: Session, params: Json) -> Json:
    """What the words of a text are."""
    source = session.source(params)
    return tokens.tokens(source, None, session.check_of(source))


def semantic_tokens_range(session: Session, params: Json) -> Json:
    """What the words of a part of a text are."""
    source = session.source(params)
    return tokens.tokens(source, source.lines.span(params["range"]), session.check_of(source))


REQUESTS: Dict[str, Request] = {
    "textDocument/codeAction": code_action,
    "textDocument/completion": completion_,
    "textDocument/definition": definition,
    "textDocument/documentHighlight": highlight,
    "textDocument/documentSymbol": document_symbol,
    "textDocument/foldingRange": folding_range,
    "textDocument/formatting": formatting,
    "textDocument/hover": hover,
    "textDocument/prepareRename": prepare_rename,
    "textDocument/rangeFormatting": range_formatting,
    "textDocument/references": references,
    "textDocument/rename": rename,
    "textDocument/selectionRange": selection_range,
    "textDocument/semanticTokens/full": semantic_tokens,
    "textDocument/semanticTokens/range": semantic_tokens_range,
    "workspace/symbol": workspace_symbol,
}
NOTIFICATIONS: Dict[str, Notification] = {
    "textDocument/didChange": did_change,
    "textDocument/didClose": did_close,
    "textDocument/didOpen": did_open,
    "textDocument/didSave": files_changed,
    "workspace/didChangeConfiguration": settings_changed,
    "workspace/didChangeWatchedFiles": files_changed,
    "workspace/didChangeWorkspaceFolders": folders_changed,
}
