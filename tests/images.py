"""What an image of ELF-64 says, read by hand: its sections that are loaded, its segments, its symbols, its entry."""
from __future__ import annotations

import struct
from typing import NamedTuple

WRITE, ALLOC, EXECUTE = 1, 2, 4
"""The flags of sections."""
NOBITS, SYMTAB, PT_LOAD = 8, 2, 1
OWN = ("ldi.", "ld.ldi.")
"""How names of symbols begin that `ld.ldi` adds."""


class Section(NamedTuple):
    """A section that is loaded and not empty."""

    name: str
    address: int
    size: int
    flags: int
    """Of WRITE, ALLOC and EXECUTE."""
    data: bytes | None
    """None without bytes in the file."""


class Segment(NamedTuple):
    """A program header."""

    kind: int
    rights: int
    offset: int
    address: int
    load: int
    file_size: int
    memory_size: int
    alignment: int


class Image(NamedTuple):
    """What an image says."""

    entry: int
    sections: list[Section]
    segments: list[Segment]
    symbols: dict[str, int]
    """The values of the symbols that are not local, but for those of OWN."""

    def section(self, name: str) -> Section:
        """The first section of a name."""
        return next(section for section in self.sections if section.name == name)

    def rights(self, address: int) -> int:
        """The rights of the PT_LOAD that has an address: 1 execute, 2 write, 4 read."""
        return next(one.rights for one in self.segments
                    if one.kind == PT_LOAD and one.address <= address < one.address + one.memory_size)

    def places(self) -> list[tuple[str, int, int, bytes | None]]:
        """Names, addresses, sizes and bytes of the sections."""
        return [(one.name, one.address, one.size, one.data) for one in self.sections]


def read_image(data: bytes) -> Image:
    """Reads an image."""
    entry, programs, headers = struct.unpack_from("<QQQ", data, 24)
    (count,) = struct.unpack_from("<H", data, 56)
    number, names_in = struct.unpack_from("<HH", data, 60)
    segments = []
    for index in range(count):
        kind, rights, *rest = struct.unpack_from("<IIQQQQQQ", data, programs + 56 * index)
        segments.append(Segment(kind, rights, *rest))
    rows = [struct.unpack_from("<IIQQQQIIQQ", data, headers + 64 * index) for index in range(number)]

    def text(table: int, at: int) -> str:
        begin = rows[table][4] + at
        return data[begin : data.index(b"\0", begin)].decode("latin-1")

    sections, symbols = [], {}
    for name, kind, flags, address, offset, size, link, *_ in rows:
        if flags & ALLOC and size:
            content = None if kind == NOBITS else data[offset : offset + size]
            sections.append(Section(text(names_in, name), address, size, flags & (WRITE | ALLOC | EXECUTE), content))
        if kind == SYMTAB:
            for word, info, _, place, value, _ in struct.iter_unpack("<IBBHQQ", data[offset : offset + size]):
                symbol = text(link, word)
                if place and info >> 4 and not symbol.startswith(OWN):
                    symbols[symbol] = value
    return Image(entry, sections, segments, symbols)
