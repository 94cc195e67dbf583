"""Edits of an object of a compiler, as a change of one thing in its source makes them: for bench/edits, bench/session.

No assembler is needed: what grows is added at the end of the file, and the section's header names that place.
"""
import os
import struct
import sys

ROOT = os.path.realpath(os.path.join(os.path.dirname(os.path.abspath(__file__)), ".."))
sys.path.insert(0, ROOT)

from tests.object_file import (  # noqa: E402
    ABSOLUTE, ALLOC, FUNCTION, GLOBAL, HEADER, NOTYPE, OBJECT, PROGBITS, RELA, SYMBOL, UNDEFINED, WRITABLE, ObjectFile,
    Symbol)

NOP = b"\x90"
RELOCATION = struct.Struct("<QQq")
PLT32 = 4
FIELD = 4
MORE = b"ldi_more"
"""The name that is more in an object."""


class Unsuited(Exception):
    """An object in which an edit cannot be made."""


class Growing:
    """An object whose sections get other contents."""

    def __init__(self, data):
        self.file = ObjectFile(data)
        self.headers = list(self.file.headers)
        self.data = bytearray(data)

    def section(self, name, kind=PROGBITS):
        """The number of the first section of a name that is not empty."""
        for index, header in enumerate(self.headers):
            if header.kind == kind and header.size and self.file.section_name(index) == name:
                return index
        raise Unsuited(f"no {name.decode()}")

    def relocations_of(self, section):
        """The number of the section that has the relocations of another."""
        for index, header in enumerate(self.headers):
            if header.kind == RELA and header.info == section and header.size:
                return index
        raise Unsuited("no relocations")

    def content(self, index):
        """The bytes of a section."""
        header = self.headers[index]
        return bytes(self.data[header.offset:header.offset + header.size])

    def put(self, index, content):
        """Gives a section another content."""
        header = self.headers[index]
        if len(content) > header.size:
            self._align()
            header = header._replace(offset=len(self.data), size=len(content))
            self.data += content
        else:
            self.data[header.offset:header.offset + len(content)] = content
        self.headers[index] = header

    def bytes(self):
        """The object."""
        self._align()
        self.data[40:48] = struct.pack("<Q", len(self.data))
        self.data[60:62] = struct.pack("<H", len(self.headers))
        self.data += b"".join(HEADER.pack(*header) for header in self.headers)
        return bytes(self.data)

    def _align(self):
        self.data += bytes(-len(self.data) % 64)

    def defined(self, kinds):
        """The number, the name and the entry of the first global symbol of one of these kinds that a section has."""
        for number, (name, symbol) in enumerate(self.file.symbols()):
            if symbol.binding == GLOBAL and symbol.kind in kinds and UNDEFINED < symbol.section < ABSOLUTE:
                return number, name, symbol
        raise Unsuited("no global symbol of a section")

    def put_symbol(self, number, symbol):
        """Writes an entry of the symbol table; one more where it is the next."""
        table = self.file.symbol_table()
        content = self.content(table)
        self.put(table, content[:24 * number] + SYMBOL.pack(*symbol) + content[24 * (number + 1):])

    def add_symbol(self, name, section=UNDEFINED, value=0):
        """One more global function, of a section or of another object; gives its number."""
        table = self.file.symbol_table()
        number, names = self.headers[table].size // SYMBOL.size, self.headers[table].link
        text = self.content(names)
        self.put(names, text + name + b"\0")
        kind, size = (NOTYPE, 0) if section == UNDEFINED else (FUNCTION, 16)
        self.put_symbol(number, Symbol(len(text), GLOBAL << 4 | kind, 0, section, value, size))
        return number

    def add_call(self, section, at, symbol):
        """One more relocation: a call at an offset."""
        table = self.relocations_of(section)
        entries = list(RELOCATION.iter_unpack(self.content(table)))
        entries.append((at, symbol << 32 | PLT32, -4))
        self.put(table, b"".join(RELOCATION.pack(*entry) for entry in sorted(entries)))

    def free_field(self, section):
        """The offset of four bytes of a section that no field has."""
        taken = sorted(entry[0] for entry in RELOCATION.iter_unpack(self.content(self.relocations_of(section))))
        for before, after in zip(taken, taken[1:]):
            if after - before >= 8 + FIELD:
                return before + 8
        raise Unsuited("no room for a field")


def names_in(data):
    """The names of all symbols."""
    return {name for name, _ in ObjectFile(data).symbols()}


def function_elsewhere(objects, data):
    """A global function of one of these objects that another one does not name."""
    known = names_in(data)
    for other in objects:
        try:
            _, name, _ = Growing(other).defined((FUNCTION,))
        except Unsuited:
            continue
        if name not in known:
            return name
    raise Unsuited("no function elsewhere")


def other_bytes(data, _):
    """Another letter in a string."""
    one = Growing(data)
    strings = one.section(b".rodata.str1.1")
    content = one.content(strings)
    one.put(strings, (b"b" if content[:1] == b"a" else b"a") + content[1:])
    return one.bytes()


def moved_symbol(data, _):
    """A symbol that others may name, 8 bytes further in its section."""
    one = Growing(data)
    number, _, symbol = one.defined((OBJECT, FUNCTION))
    one.put_symbol(number, symbol._replace(value=symbol.value + 8))
    return one.bytes()


def longer(data, _):
    """Code that is 16 bytes longer at its end."""
    one = Growing(data)
    text = one.section(b".text")
    one.put(text, one.content(text) + NOP * 16)
    return one.bytes()


def more_call(data, called):
    """A call more, of a function that the object did not name."""
    one = Growing(data)
    text = one.section(b".text")
    one.add_call(text, one.free_field(text), one.add_symbol(called))
    return one.bytes()


def more_symbol(data, _):
    """A symbol more."""
    one = Growing(data)
    one.add_symbol(MORE, one.section(b".text"))
    return one.bytes()


def more_function(data, called):
    """A function more, with such a call."""
    one = Growing(data)
    text = one.section(b".text")
    end = one.headers[text].size + -one.headers[text].size % 16
    one.put(text, one.content(text).ljust(end + 64, NOP))
    one.add_symbol(MORE, text, end)
    one.add_call(text, end + 1, one.add_symbol(called))
    return one.bytes()


def more_section(data, _):
    """Another section of data, with the name of the first."""
    one = Growing(data)
    first = next((header for index, header in enumerate(one.headers)
                  if header.kind == PROGBITS and one.file.section_name(index) == b".data"), None)
    if first is None:
        raise Unsuited("no .data")
    one.headers.append(first._replace(flags=ALLOC | WRITABLE, offset=len(one.data), size=64, alignment=8))
    one.data += bytes(64)
    return one.bytes()


VARIANTS = {
    "other bytes": other_bytes,
    "a symbol that moves": moved_symbol,
    "one longer function": longer,
    "a call more": more_call,
    "a symbol more": more_symbol,
    "a function more": more_function,
    "a section more": more_section,
}


def variants(data, called):
    """The title of each edit and the object that it makes of this one; `called` is a function that it does not name."""
    return {title: edit(data, called) for title, edit in VARIANTS.items()}
