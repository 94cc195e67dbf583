"""The table of symbols and the relocations of an image, entry by entry, read by hand."""
from __future__ import annotations

import struct
from itertools import zip_longest
from typing import NamedTuple

SYMTAB, RELA = 2, 4
RESERVED = {0: "UND", 0xFFF1: "ABS", 0xFFF2: "COM"}
"""Numbers of sections that are none."""
BINDINGS = {0: "LOCAL", 1: "GLOBAL", 2: "WEAK", 10: "UNIQUE"}
TYPES = {0: "NOTYPE", 1: "OBJECT", 2: "FUNC", 3: "SECTION", 4: "FILE"}
VISIBILITIES = ("DEFAULT", "INTERNAL", "HIDDEN", "PROTECTED")


class Entry(NamedTuple):
    """A symbol."""

    name: str
    binding: str
    kind: str
    visibility: str
    section: str
    """Its name; `ABS` and `UND` are none."""
    value: int
    size: int


class Table(NamedTuple):
    """A table of symbols."""

    entries: list[Entry]
    first_global: int
    """`sh_info`"""


class _File:
    """The section headers of a file, with their names."""

    def __init__(self, data: bytes) -> None:
        self.data = data
        (at,) = struct.unpack_from("<Q", data, 40)
        count, names_in = struct.unpack_from("<HH", data, 60)
        self.rows = [struct.unpack_from("<IIQQQQIIQQ", data, at + 64 * number) for number in range(count)]
        self.names = [self.text(names_in, row[0]) for row in self.rows]

    def text(self, table: int, at: int) -> str:
        """A text of a table of names."""
        begin = self.rows[table][4] + at
        return self.data[begin:self.data.index(b"\0", begin)].decode("latin-1")


def read_table(data: bytes) -> Table | None:
    """The table of symbols of an image; none where it has none."""
    file = _File(data)
    for _, kind, _, _, offset, size, link, info, *_ in file.rows:
        if kind == SYMTAB:
            rows = struct.iter_unpack("<IBBHQQ", data[offset:offset + size])
            return Table([_entry(file, link, row) for row in rows], info)
    return None


class Relocation(NamedTuple):
    """A relocation."""

    offset: int
    kind: int
    symbol: Entry | None
    addend: int


def read_relocations(data: bytes) -> dict[str, list[Relocation]]:
    """The relocations of an image, by their sections, which are named as `.rela.text of .text`."""
    file, table = _File(data), read_table(data)
    entries = [] if table is None else table.entries
    found = {}
    for number, (_, kind, _, _, offset, size, _, info, *_) in enumerate(file.rows):
        if kind == RELA:
            rows = [(at, word & 0xFFFFFFFF, word >> 32, addend)
                    for at, word, addend in struct.iter_unpack("<QQq", data[offset:offset + size])]
            found[f"{file.names[number]} of {file.names[info]}"] = [
                Relocation(at, one, entries[symbol] if symbol else None, addend) for at, one, symbol, addend in rows]
    return found


def _entry(file: _File, names: int, row: tuple[int, ...]) -> Entry:
    name, info, other, section, value, size = row
    home = RESERVED.get(section) or file.names[section]
    kind = TYPES.get(info & 15, str(info & 15))
    return Entry(file.text(names, name), BINDINGS[info >> 4], kind, VISIBILITIES[other & 3], home, value, size)


def table_differences(gnu: bytes, own: bytes) -> list[str]:
    """The first difference of two images' tables of symbols."""
    one, other = read_table(gnu), read_table(own)
    if one is None or other is None:
        return [] if one is other else [f"table of symbols: {one is not None} {other is not None}"]
    there = set(_File(own).names) | set(RESERVED.values())
    # what is in a section that is not loaded is a number where the image does not have it
    entries = [entry if entry.section in there else entry._replace(section="ABS") for entry in one.entries
               if entry.kind != "SECTION" or entry.section in there]
    relocations = read_relocations(gnu), read_relocations(own)
    for name in set(relocations[0]) | set(relocations[1]):
        of_both = zip_longest(*(one.get(name, []) for one in relocations))
        differs = [f"relocation of {name}: {one}: {other}" for one, other in of_both if one != other]
        if differs:
            return differs[:1]
    pairs = zip_longest(entries, other.entries)
    found = [f"symbol entry {number}: {_words(a)}: {_words(b)}" for number, (a, b) in enumerate(pairs) if a != b]
    first = one.first_global - (len(one.entries) - len(entries))
    return found[:1] or ([] if first == other.first_global else ["symbols: the first that is not local"])


def _words(entry: Entry | None) -> str:
    return "none" if entry is None else " ".join(hex(word) if isinstance(word, int) else word for word in entry)
