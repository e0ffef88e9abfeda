"""What a shared object says of itself: its processor, its name, what it exports, and what it wants.

It reads the tables of an ELF file for 64 bits whose numbers begin with their least byte, as on
x86-64 and aarch64.
"""

from __future__ import annotations

import struct
from typing import Dict, Iterator, NamedTuple, Optional, Set, Tuple

MAGIC = b"\x7fELF\x02\x01"
# The numbers of processors, with their names as `uname -m` has them.
PROCESSORS = {62: "x86_64", 183: "aarch64"}
# The kinds of sections that are read, and the tag of the row that has the name.
DYNAMIC, DYNAMIC_SYMBOLS, NEEDED_VERSIONS = 6, 11, 0x6FFFFFFE
SONAME = 14
# A symbol is a row of 24 bytes; one that isn't defined has the section 0.
SYMBOL, UNDEFINED = struct.Struct("<IBBHQQ"), 0
VERSION, NAME = struct.Struct("<HHIII"), struct.Struct("<IHHII")
ROW = struct.Struct("<QQ")


class Section(NamedTuple):
    """A section: its kind, where it stands, and the section of its texts."""

    kind: int
    start: int
    size: int
    texts: int


class SharedObject:
    """A shared object, read from its bytes. ValueError of what is none."""

    def __init__(self, data: bytes) -> None:
        if not data.startswith(MAGIC):
            raise ValueError("no shared object for 64 bits")
        self.data = data
        start, = struct.unpack_from("<Q", data, 0x28)
        size, count = struct.unpack_from("<HH", data, 0x3A)
        self.sections = [self._section(start + size * number) for number in range(count)]

    def _section(self, place: int) -> Section:
        kind, = struct.unpack_from("<I", self.data, place + 4)
        start, size, texts = struct.unpack_from("<QQI", self.data, place + 24)
        return Section(kind, start, size, texts)

    def _of_kind(self, kind: int) -> Iterator[Section]:
        return (it for it in self.sections if it.kind == kind)

    def _text(self, section: Section, place: int) -> str:
        start = self.sections[section.texts].start + place
        return self.data[start:self.data.index(b"\0", start)].decode()

    def processor(self) -> str:
        """The processor that it is for, as `uname -m` names it, or else its number."""
        number, = struct.unpack_from("<H", self.data, 0x12)
        return PROCESSORS.get(number, str(number))

    def soname(self) -> Optional[str]:
        """The name by which the programs that are linked with it load it, where it has one."""
        for section in self._of_kind(DYNAMIC):
            rows = self.data[section.start:section.start + section.size]
            for tag, place in ROW.iter_unpack(rows):
                if tag == SONAME:
                    return self._text(section, place)
        return None

    def exports(self) -> Set[str]:
        """The names of what it defines for others."""
        return {
            self._text(section, name)
            for section in self._of_kind(DYNAMIC_SYMBOLS)
            for name, _, _, where, _, _ in SYMBOL.iter_unpack(
                self.data[section.start:section.start + section.size]
            )
            if name and where != UNDEFINED
        }

    def wants(self) -> Dict[str, Set[str]]:
        """The libraries that it wants, each with its versions, as {"libc.so.6": {"GLIBC_2.14"}}."""
        tables = self._of_kind(NEEDED_VERSIONS)
        return {name: names for table in tables for name, names in self._libraries(table)}

    def _libraries(self, section: Section) -> Iterator[Tuple[str, Set[str]]]:
        place, following = section.start, 1
        while following:
            _, count, file, first, following = VERSION.unpack_from(self.data, place)
            yield self._text(section, file), set(self._names(section, place + first, count))
            place += following

    def _names(self, section: Section, place: int, count: int) -> Iterator[str]:
        for _ in range(count):
            _, _, _, name, following = NAME.unpack_from(self.data, place)
            yield self._text(section, name)
            place += following
