"""The texts that are open in the editor, and those of the files in its folders."""

from __future__ import annotations

import os
import time
from itertools import islice
from pathlib import Path
from typing import Any, Dict, Iterator, List, NamedTuple, Optional, Tuple
from urllib.parse import unquote, urlsplit

from weedle._dialect import Dialect
from weedle.lsp.positions import USUAL
from weedle.lsp.protocol import Check, Code, Fault, nothing
from weedle.lsp.sources import Source, bytes_of

#: What the names of files of WebIDL end with.
SUFFIXES = (".webidl", ".widl", ".idl")
# Folders whose files are none of the project's own; those that begin with a dot aren't either.
LEFT_OUT = frozenset(["node_modules"])
# A folder is looked at again when so many times as long has passed as the look took, and never
# more than so many files of at most so many bytes are read.
REST, MOST_FILES, MOST_BYTES = 20, 20_000, 1 << 22
BYTE_ORDER_MARK = b"\xef\xbb\xbf"


class Document(NamedTuple):
    """A text that is open in the editor, with the number that the editor gives it."""

    version: Optional[int]
    source: Source


class File(NamedTuple):
    """What was read of a file, and when it was changed last; without a text it isn't UTF-8."""

    stamp: Tuple[int, int]
    source: Optional[Source]


def path_of(uri: str) -> str:
    """The path of a file, or the URI of something else."""
    parts = urlsplit(uri)
    return os.path.normpath(unquote(parts.path)) if parts.scheme == "file" else uri


def is_within(path: str, folder: str) -> bool:
    """Whether a file is in a folder or below it; all is in the one without a name."""
    return not folder or path == folder or path.startswith(folder.rstrip("/") + "/")


def source_of(path: str, encoding: str, dialect: Dialect = "weedle2") -> Optional[Source]:
    """The text of a file; None of one that isn't UTF-8, or can't be read."""
    try:
        data = Path(path).read_bytes()
        data.decode()
    except (OSError, UnicodeDecodeError):
        return None
    if data.startswith(BYTE_ORDER_MARK):
        data = data[len(BYTE_ORDER_MARK):]  # editors leave it out too
    return Source(Path(path).as_uri(), data, encoding, dialect)


def files_in(folder: str, check: Check) -> Iterator[Tuple[str, Tuple[int, int]]]:
    """The files of WebIDL in a folder and those below it, each with its stamp."""
    for top, folders, names in os.walk(folder):
        check()
        folders[:] = sorted(it for it in folders if it[0] != "." and it not in LEFT_OUT)
        for name in sorted(it for it in names if it.endswith(SUFFIXES)):
            path = os.path.join(top, name)
            try:
                found = os.stat(path)
            except OSError:
                continue
            if found.st_size <= MOST_BYTES:
                yield os.path.normpath(path), (found.st_mtime_ns, found.st_size)


class Workspace:
    """All texts that are known."""

    def __init__(self, check: Check = nothing) -> None:
        self.check = check
        self.encoding = USUAL
        self.folders: List[str] = []
        #: The dialect of texts of whose folder none is said, and those of folders; "" is all of them.
        self.dialect: Dialect = "weedle2"
        self.dialects: Dict[str, Dialect] = {}
        self.documents: Dict[str, Document] = {}
        self.files: Dict[str, File] = {}
        self._next_look = 0.0

    def open(self, uri: str, version: Optional[int], text: str) -> None:
        """Takes a text that was opened."""
        path = path_of(uri)
        source = Source(uri, bytes_of(text), self.encoding, self.dialect_of(path))
        self.documents[path] = Document(version, source)

    def change(self, uri: str, version: Optional[int], changes: List[Any]) -> None:
        """Takes the changes of a text that is open."""
        source = self.document(uri).source.changed(changes)
        self.documents[path_of(uri)] = Document(version, source)

    def close(self, uri: str) -> None:
        """Lets a text go; its file may be known."""
        self.documents.pop(path_of(uri), None)

    def document(self, uri: str) -> Document:
        """A text that is open."""
        try:
            return self.documents[path_of(uri)]
        except KeyError:
            raise Fault(f"{uri} isn't open", Code.INVALID_PARAMS) from None

    def forget(self) -> None:
        """Has the folders looked at when they are asked for next."""
        self._next_look = 0.0

    def dialect_of(self, path: str) -> Dialect:
        """The dialect of a text: that of the innermost folder that it is in, of which one is said."""
        folders = [it for it in self.dialects if is_within(path, it)]
        return self.dialects[max(folders, key=len)] if folders else self.dialect

    def use(self, dialects: Dict[str, Dialect]) -> List[str]:
        """Takes the dialects of folders. It gives the open texts that are read by another one now."""
        self.dialects = dialects
        changed: List[str] = []
        for path, (version, source) in list(self.documents.items()):
            dialect = self.dialect_of(path)
            if source.dialect != dialect:
                changed.append(source.uri)
                self.documents[path] = Document(version, source.of(source.data, dialect))
        for path, file in list(self.files.items()):
            dialect = self.dialect_of(path)
            if file.source and file.source.dialect != dialect:
                again = file.source.of(file.source.data, dialect)
                self.files[path] = File(file.stamp, again)
        return changed

    def sources(self) -> Iterator[Source]:
        """All texts: those that are open first."""
        self.look()
        for document in self.documents.values():
            self.check()
            yield document.source
        for path, file in self.files.items():
            if file.source and path not in self.documents:
                self.check()
                yield file.source

    def look(self) -> None:
        """Reads those files of the folders that are new or were changed."""
        began = time.monotonic()
        if began < self._next_look:
            return
        found = set()
        for path, stamp in self._stamps():
            found.add(path)
            known = self.files.get(path)
            if not known or known.stamp != stamp:
                source = source_of(path, self.encoding, self.dialect_of(path))
                self.files[path] = File(stamp, source)
        for path in set(self.files) - found:
            del self.files[path]
        ended = time.monotonic()
        self._next_look = ended + REST * (ended - began)

    def _stamps(self) -> Iterator[Tuple[str, Tuple[int, int]]]:
        """The files of all folders, each with its stamp."""
        all_ = (it for folder in self.folders for it in files_in(folder, self.check))
        return islice(all_, MOST_FILES)
