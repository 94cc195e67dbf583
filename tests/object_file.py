"""Section headers and symbols of an ELF-64 file, for tests, fuzzers and bench/. What cannot be read is NotElf."""
from __future__ import annotations

import struct
from collections.abc import Iterator
from functools import cached_property
from typing import NamedTuple

WRITABLE, ALLOC, EXECUTABLE, COMPRESSED = 1, 2, 4, 0x800
PROGBITS, SYMTAB, STRTAB, RELA, NOTE, NOBITS = 1, 2, 3, 4, 7, 8
LINKED = frozenset((PROGBITS, NOTE, NOBITS, 14, 15, 16, 0x70000001))
"""The kinds of sections that are linked; the last four are INIT_ARRAY, FINI_ARRAY, PREINIT_ARRAY and X86_64_UNWIND."""
LOCAL, GLOBAL, WEAK = 0, 1, 2
NOTYPE, OBJECT, FUNCTION, SECTION, FILE = range(5)
UNDEFINED, ABSOLUTE, COMMON = 0, 0xFFF1, 0xFFF2
ELF_HEADER, ENTRY_SIZE = 64, 24

HEADER = struct.Struct("<IIQQQQIIQQ")
KIND = struct.Struct("<4xI56x")
"""The kind alone of a section header."""
SYMBOL = struct.Struct("<IBBHQQ")
"""Of an entry of the symbol table the name, the binding and the section."""


class NotElf(Exception):
    """Bytes that are no ELF-64 file, or whose tables lie outside of it."""


class Header(NamedTuple):
    """A section header."""

    name_at: int
    kind: int
    flags: int
    address: int
    offset: int
    size: int
    link: int
    info: int
    alignment: int
    entry_size: int


class Symbol(NamedTuple):
    """An entry of the symbol table."""

    name_at: int
    info: int
    other: int
    section: int
    value: int
    size: int

    @property
    def binding(self) -> int:
        """LOCAL, GLOBAL or WEAK."""
        return self.info >> 4

    @property
    def kind(self) -> int:
        """NOTYPE, OBJECT, FUNCTION, SECTION, FILE, or another number."""
        return self.info & 15


class ObjectFile:
    """An object or an image in memory."""

    def __init__(self, data: bytes) -> None:
        """Finds the section headers; NotElf where there are none."""
        if data[:6] != b"\x7fELF\2\1":
            raise NotElf("no ELF-64 file")
        if len(data) < ELF_HEADER:
            raise NotElf("its section headers are past its end")
        self.data = data
        (self.headers_at,) = struct.unpack_from("<Q", data, 40)
        self.header_size, self.count, self.names_in = struct.unpack_from("<HHH", data, 58)
        """e_shoff, e_shentsize, e_shnum and e_shstrndx."""
        if self.headers_at + HEADER.size * self.count > len(data):
            raise NotElf("its section headers are past its end")

    @cached_property
    def headers(self) -> list[Header]:
        """The section headers."""
        return [Header._make(header) for header in HEADER.iter_unpack(self._table())]

    def kinds(self) -> list[int]:
        """The kinds of the sections."""
        return [kind for kind, in KIND.iter_unpack(self._table())]

    def _table(self) -> bytes:
        return self.data[self.headers_at : self.headers_at + HEADER.size * self.count]

    @property
    def kind(self) -> int:
        """e_type: 1 for an object, 2 for an image, 3 for a shared library."""
        return int.from_bytes(self.data[16:18], "little")

    def content(self, index: int) -> bytes:
        """The bytes of a section."""
        header = self._header(index)
        return self.data[header.offset : header.offset + header.size]

    def section_name(self, index: int) -> bytes:
        """The name of a section."""
        return self._string(self.names_in, self._header(index).name_at)

    def symbol_table(self) -> int | None:
        """The number of the symbol table's section."""
        kinds = self.kinds()
        return kinds.index(SYMTAB) if SYMTAB in kinds else None

    def symbols(self, first: int = 0, last: int | None = None) -> Iterator[tuple[bytes, Symbol]]:
        """The symbols from one number to before another, with their names."""
        index = self.symbol_table()
        if index is None:
            return
        header = self.headers[index]
        names = self.content(header.link)
        table = self.content(index)
        end = len(table) // ENTRY_SIZE
        end = end if last is None else min(end, last)
        for symbol in map(Symbol._make, SYMBOL.iter_unpack(table[ENTRY_SIZE * first : ENTRY_SIZE * end])):
            stop = names.find(b"\0", symbol.name_at)
            if stop < 0:
                raise NotElf("the name of a symbol is past its table")
            yield names[symbol.name_at : stop], symbol

    def _header(self, index: int) -> Header:
        if index >= self.count:
            raise NotElf(f"there is no section {index}")
        return Header._make(HEADER.unpack_from(self.data, self.headers_at + HEADER.size * index))

    def _string(self, table: int, begin: int) -> bytes:
        header = self._header(table)
        stop = self.data.find(b"\0", header.offset + begin)
        if stop < 0:
            raise NotElf("a name is past its table")
        return self.data[header.offset + begin : stop]
