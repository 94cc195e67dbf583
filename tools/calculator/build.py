"""Relocatable objects for tests: two by their bytes, and any other from its sections, symbols and relocations."""
from dataclasses import dataclass

from . import elf
from .elf import spell
from .tail import section_header

ALLOC, WRITE, EXEC = elf.SHF_ALLOC, elf.SHF_WRITE, elf.SHF_EXECINSTR
CODE, DATA, READ_ONLY = ALLOC | EXEC, ALLOC | WRITE, ALLOC


@dataclass(frozen=True)
class Sec:
    """A section. `size` counts for NOBITS alone, which has no content."""
    name: str
    content: bytes = b""
    flags: int = CODE
    kind: int = elf.SHT_PROGBITS
    alignment: int = 1
    size: int = 0


@dataclass(frozen=True)
class Sym:
    """A symbol; `section` is a section's number from 1, or UNDEF, ABS or COMMON."""
    name: str
    section: int = elf.SHN_UNDEF
    value: int = 0
    size: int = 0
    binding: int = elf.STB_GLOBAL
    kind: int = elf.STT_NOTYPE


@dataclass(frozen=True)
class Rel:
    """A relocation of section number `of`; `symbol` is a name, or the number of an entry."""
    of: int
    offset: int
    kind: int
    symbol: object
    addend: int = 0


def file_header(table, count, names):
    """The header of a relocatable object whose section headers stand at `table`."""
    return (elf.IDENT + bytes(9) + spell(elf.ET_REL, 2) + spell(elf.EM_X86_64, 2) + spell(elf.EV_CURRENT, 4)
            + bytes(16) + spell(table, 8) + bytes(4) + spell(elf.FILE_HEADER_SIZE, 2) + bytes(4)
            + spell(elf.SECTION_HEADER_SIZE, 2) + spell(count, 2) + spell(names, 2))


class Strings:
    """A string table that grows; each name stands for itself."""

    def __init__(self):
        self.data = b"\0"

    def at(self, name):
        """Where the name stands, which is added. The empty name stands at 0."""
        if not name:
            return 0
        self.data += elf.data_of(name) + b"\0"
        return len(self.data) - len(name) - 1


def symbol_bytes(symbol, strings):
    return (spell(strings.at(symbol.name), 4) + spell(symbol.binding << 4 | symbol.kind, 1) + b"\0"
            + spell(symbol.section, 2) + spell(symbol.value, 8) + spell(symbol.size, 8))


def relocation_bytes(relocation, symbols):
    """The symbol by its name is the first entry of that name."""
    number = relocation.symbol
    if isinstance(number, str):
        number = 1 + [symbol.name for symbol in symbols].index(number)
    return spell(relocation.offset, 8) + spell(number << 32 | relocation.kind, 8) + spell(relocation.addend, 8)


def build(sections, symbols=(), relocations=()):
    """The bytes of an object: contents, symbol table (local symbols first), string tables, RELA sections, headers."""
    names, strings = Strings(), Strings()
    symbols = sorted(symbols, key=lambda symbol: symbol.binding != elf.STB_LOCAL)
    table = bytes(elf.SYMBOL_SIZE) + b"".join(symbol_bytes(symbol, strings) for symbol in symbols)
    locals_end = 1 + sum(symbol.binding == elf.STB_LOCAL for symbol in symbols)
    number = len(sections)
    parts = [(section.name, section.kind, section.flags, section.content, 0, 0, section.alignment, 0,
              section.size if section.kind == elf.SHT_NOBITS else len(section.content)) for section in sections]
    parts.append((".symtab", elf.SHT_SYMTAB, 0, table, number + 2, locals_end, 8, elf.SYMBOL_SIZE, len(table)))
    parts.append((".strtab", elf.SHT_STRTAB, 0, strings.data, 0, 0, 1, 0, len(strings.data)))
    for of in sorted({relocation.of for relocation in relocations}):
        data = b"".join(relocation_bytes(entry, symbols) for entry in relocations if entry.of == of)
        name = ".rela" + sections[of - 1].name
        parts.append((name, elf.SHT_RELA, 0, data, number + 1, of, 8, elf.RELA_SIZE, len(data)))
    return assemble(parts, names)


def assemble(parts, names):
    """Puts the parts into a file, with the name table last and header 0 before all."""
    spelled = [names.at(part[0]) for part in parts]
    last = names.at(".shstrtab")
    parts = parts + [(".shstrtab", elf.SHT_STRTAB, 0, names.data, 0, 0, 1, 0, len(names.data))]
    data, headers = bytearray(elf.FILE_HEADER_SIZE), [section_header()]
    for at, (_, kind, flags, content, link, info, alignment, entry_size, size) in zip(spelled + [last], parts):
        headers.append(section_header(at, kind, flags, 0, len(data), size, link, info, alignment, entry_size))
        data += content
    data[0:elf.FILE_HEADER_SIZE] = file_header(len(data), len(headers), len(headers) - 1)
    return bytes(data) + b"".join(headers)


def object_a():
    """280 bytes: `.text` with `90 90 90 C3`."""
    return (file_header(88, 3, 2) + bytes.fromhex("909090C3") + b"\0.text\0.shstrtab\0" + bytes(3) + section_header()
            + section_header(1, elf.SHT_PROGBITS, CODE, offset=64, size=4, alignment=1)
            + section_header(7, elf.SHT_STRTAB, offset=68, size=17, alignment=1))


def object_b():
    """480 bytes: `.text` is a call, PLT32 at 1 with addend -4, of an undefined GLOBAL `w`."""
    return (file_header(160, 5, 3) + bytes.fromhex("E800000000000000") + b"\0.text\0w\0" + bytes(7)
            + bytes(24) + spell(7, 4) + b"\x10" + bytes(19)
            + spell(1, 8) + spell(1 << 32 | 4, 8) + spell(-4, 8) + section_header()
            + section_header(1, elf.SHT_PROGBITS, CODE, offset=64, size=5, alignment=1)
            + section_header(0, elf.SHT_SYMTAB, offset=88, size=48, link=3, info=1, alignment=8, entry_size=24)
            + section_header(0, elf.SHT_STRTAB, offset=72, size=9, alignment=1)
            + section_header(0, elf.SHT_RELA, offset=136, size=24, link=2, info=1, alignment=8, entry_size=24))


def changed(data, changes):
    """The bytes with some of them set: offset to value."""
    data = bytearray(data)
    for at, value in changes.items():
        data[at] = value
    return bytes(data)
