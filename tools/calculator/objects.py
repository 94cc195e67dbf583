"""The reader of relocatable objects: what the bytes spell, or the first of thirteen refusals that applies.

From the System V gABI (ELF-64) and the x86-64 psABI, narrowed to the profile of static links.
"""
from dataclasses import dataclass
from functools import cached_property

from . import elf
from .elf import number
from .relocation import WIDTHS

MOST_SECTION_HEADERS = 65_279
MOST_SECTION_BYTES = 2 ** 31
LONGEST_NAME = 65_535


@dataclass(frozen=True)
class Section:
    """A linked section: an allocated one of a type that is linked. NOBITS has no content."""
    number: int
    name: str
    kind: int
    flags: int
    size: int
    alignment: int
    content: bytes


@dataclass(frozen=True)
class Symbol:
    """An entry of the symbol table. Only non-local entries have their names read."""
    number: int
    name: str
    binding: int
    kind: int
    section: int
    value: int
    size: int

    @property
    def is_local(self):
        """Entry 0 is a null symbol whatever its bytes, and local."""
        return self.number == 0 or self.binding == elf.STB_LOCAL

    @property
    def is_undefined(self):
        return self.section == elf.SHN_UNDEF

    @property
    def is_common(self):
        return self.section == elf.SHN_COMMON


@dataclass(frozen=True)
class Relocation:
    """An entry of the RELA section of a linked section; `entry` is its number there."""
    entry: int
    offset: int
    symbol: int
    kind: int
    addend: int


@dataclass(frozen=True)
class Object:
    """Linked sections, symbols and relocations (by the number of the section they change), in table order."""
    sections: list
    symbols: list
    relocations: dict


@dataclass(frozen=True)
class Header:
    """A section header. Number 0 counts as NULL whatever its bytes."""
    number: int
    name: int
    kind: int
    flags: int
    offset: int
    size: int
    link: int
    info: int
    alignment: int
    entry_size: int

    @property
    def is_linked(self):
        return self.kind in elf.LINKED_TYPES and bool(self.flags & elf.SHF_ALLOC)


class File:
    """The bytes of a file as ELF structures. One is asked for only after the refusals that keep it in the file."""

    def __init__(self, data):
        self.data = data

    def half(self, at):
        return number(self.data, at, 2)

    @cached_property
    def headers(self):
        """All section headers, in table order."""
        start, count = number(self.data, 40, 8), self.half(60)
        return [self.header(at, start + elf.SECTION_HEADER_SIZE * at) for at in range(count)]

    def header(self, at, start):
        """sh_name, sh_type, sh_flags, sh_offset, sh_size, sh_link, sh_info, sh_addralign, sh_entsize."""
        n = lambda offset, size: number(self.data, start + offset, size)
        kind = n(4, 4) if at != 0 else elf.SHT_NULL
        return Header(at, n(0, 4), kind, n(8, 8), n(24, 8), n(32, 8), n(40, 4), n(44, 4), n(48, 8), n(56, 8))

    @property
    def sections(self):
        """The headers that are looked at: all but those of type NULL."""
        return [header for header in self.headers if header.kind != elf.SHT_NULL]

    def is_string_table(self, at):
        return at < len(self.headers) and self.headers[at].kind == elf.SHT_STRTAB

    def content(self, header):
        """The bytes of a section in the file."""
        return b"" if header.kind == elf.SHT_NOBITS else self.data[header.offset:header.offset + header.size]

    def string(self, table, at):
        """The text at `at` of a string table up to the next zero byte inside the table, or None."""
        header = self.headers[table]
        start, stop = header.offset + at, header.offset + header.size
        end = self.data.find(b"\0", start, stop) if start < stop else -1
        return None if end < 0 else elf.text(self.data[start:end])

    def section_name(self, header):
        return self.string(self.half(62), header.name)

    @property
    def symbol_tables(self):
        return [header for header in self.sections if header.kind == elf.SHT_SYMTAB]

    @property
    def symbol_table(self):
        """The one SYMTAB, or None."""
        return next(iter(self.symbol_tables), None)

    @cached_property
    def symbols(self):
        """All entries of the symbol table, entry 0 too; none without a table."""
        table = self.symbol_table
        if table is None:
            return []
        return [self.symbol(table, at) for at in range(table.size // elf.SYMBOL_SIZE)]

    def symbol(self, table, at):
        """st_name, st_info, st_shndx, st_value, st_size; the name is None where it does not end in its table."""
        start = table.offset + elf.SYMBOL_SIZE * at
        info = self.data[start + 4]
        binding = info >> 4
        name = "" if at == 0 or binding == elf.STB_LOCAL else self.string(table.link, number(self.data, start, 4))
        return Symbol(at, name, binding, info & 15, self.half(start + 6), number(self.data, start + 8, 8),
                      number(self.data, start + 16, 8))

    @property
    def relocation_sections(self):
        """The RELA and REL sections that name a linked section."""
        return [header for header in self.sections if header.kind in (elf.SHT_RELA, elf.SHT_REL)
                and self.headers[header.info].kind != elf.SHT_NULL and self.headers[header.info].is_linked]

    def entries(self, header):
        """r_offset, r_info (symbol in the upper half, type in the lower) and r_addend, signed."""
        for entry in range(header.size // elf.RELA_SIZE):
            start = header.offset + elf.RELA_SIZE * entry
            addend = int.from_bytes(self.data[start + 16:start + 24], "little", signed=True)
            yield Relocation(entry, number(self.data, start, 8), number(self.data, start + 12, 4),
                             number(self.data, start + 8, 4), addend)


def is_short(file):
    """1: there is no whole file header."""
    return len(file.data) < elf.FILE_HEADER_SIZE


def is_not_elf(file):
    """2: the magic number is not there."""
    return file.data[0:4] != elf.IDENT[0:4]


def has_other_class(file):
    """3: class, byte order, version, file type or machine."""
    return (file.data[4:7] != elf.IDENT[4:7] or file.half(16) != elf.ET_REL or file.half(18) != elf.EM_X86_64
            or number(file.data, 20, 4) != elf.EV_CURRENT)


def has_bad_table(file):
    """4: section headers of another size, or outside the file."""
    end = number(file.data, 40, 8) + elf.SECTION_HEADER_SIZE * file.half(60)
    return file.half(58) != elf.SECTION_HEADER_SIZE or end > len(file.data)


def has_bad_count(file):
    """5: no section header or too many, or the number of the name table is not below the count."""
    count = file.half(60)
    return count == 0 or count > MOST_SECTION_HEADERS or file.half(62) >= count


def has_bad_section(file):
    """6: the name table is no STRTAB; or a section lies outside the file, is too large or has no good alignment."""
    return not file.is_string_table(file.half(62)) or any(
        header.kind != elf.SHT_NOBITS and header.offset + header.size > len(file.data)
        or header.size > MOST_SECTION_BYTES
        or header.alignment != 0 and not elf.is_power_of_two(header.alignment)
        for header in file.sections)


def has_foreign_section(file):
    """7: an allocated section of a type, with a flag or with a name outside the profile."""
    return any(header.flags & elf.SHF_ALLOC and (header.kind not in elf.LINKED_TYPES
                                                 or header.flags & ~elf.KNOWN_FLAGS
                                                 or is_bad_name(file.section_name(header)))
               for header in file.sections)


def is_bad_name(name):
    """A name that does not end inside its table, or is outside the limits."""
    return name is None or not elf.printable_name(name, LONGEST_NAME)


def has_bad_symbol_table(file):
    """8: a second symbol table; its sizes, its string table; or local entries that do not stand first."""
    table = file.symbol_table
    if table is None:
        return False
    if (len(file.symbol_tables) > 1 or table.entry_size != elf.SYMBOL_SIZE or table.size == 0
            or table.size % elf.SYMBOL_SIZE != 0 or not file.is_string_table(table.link)
            or not 1 <= table.info <= table.size // elf.SYMBOL_SIZE):
        return True
    return any((symbol.binding == elf.STB_LOCAL) != (symbol.number < table.info) for symbol in file.symbols[1:])


def has_bad_symbol(file):
    """9: an entry from 1 on outside the profile."""
    return any(is_bad_symbol(file, symbol) for symbol in file.symbols[1:])


def is_bad_symbol(file, symbol):
    """Its binding, type or section; what local and what other entries may be; the name; a common block's numbers."""
    if (symbol.binding > elf.STB_WEAK or symbol.kind > elf.STT_COMMON
            or symbol.section >= len(file.headers) and symbol.section not in (elf.SHN_ABS, elf.SHN_COMMON)):
        return True
    if symbol.binding == elf.STB_LOCAL:
        return symbol.is_undefined or symbol.is_common
    if symbol.kind in (elf.STT_SECTION, elf.STT_FILE) or is_bad_name(symbol.name):
        return True
    return symbol.is_common and (symbol.binding != elf.STB_GLOBAL or not elf.is_power_of_two(symbol.value)
                                 or symbol.size > MOST_SECTION_BYTES)


def has_bad_relocation_section(file):
    """10: a REL or RELA section that names no section of the file, or a bad one of a linked section."""
    if any(header.info >= len(file.headers) for header in file.sections if header.kind in (elf.SHT_RELA, elf.SHT_REL)):
        return True
    changed = [header.info for header in file.relocation_sections]
    if len(changed) != len(set(changed)):
        return True
    return any(is_bad_relocation_section(file, header) for header in file.relocation_sections)


def is_bad_relocation_section(file, header):
    """It is REL, its sizes, a link that is not the symbol table, or an entry whose symbol is not in that table."""
    table = file.symbol_table
    return (header.kind == elf.SHT_REL or header.entry_size != elf.RELA_SIZE or header.size % elf.RELA_SIZE != 0
            or table is None or header.link != table.number
            or any(relocation.symbol >= len(file.symbols) for relocation in file.entries(header)))


def has_foreign_relocation(file):
    """11: a relocation type outside the profile."""
    return any(relocation.kind not in WIDTHS
               for header in file.relocation_sections for relocation in file.entries(header))


def has_field_outside(file):
    """12: an entry for a section without file bytes, or a field that passes the end of its section."""
    for header in file.relocation_sections:
        changed = file.headers[header.info]
        for relocation in file.entries(header):
            if changed.kind == elf.SHT_NOBITS or relocation.offset + WIDTHS[relocation.kind] > changed.size:
                return True
    return False


def has_shared_byte(file):
    """13: two fields of one section share a byte. A field of width 0 has none."""
    for header in file.relocation_sections:
        fields = sorted((relocation.offset, relocation.offset + WIDTHS[relocation.kind])
                        for relocation in file.entries(header) if WIDTHS[relocation.kind] > 0)
        if any(end > start for (_, end), (start, _) in zip(fields, fields[1:])):
            return True
    return False


CONDITIONS = [is_short, is_not_elf, has_other_class, has_bad_table, has_bad_count, has_bad_section,
              has_foreign_section, has_bad_symbol_table, has_bad_symbol, has_bad_relocation_section,
              has_foreign_relocation, has_field_outside, has_shared_byte]


def refusal(data):
    """The least number from 1 to 13 whose condition holds, or 0."""
    file = File(data)
    return next((at for at, holds in enumerate(CONDITIONS, 1) if holds(file)), 0)


def read(data):
    """The object that the bytes spell. Only for bytes without a refusal."""
    file = File(data)
    sections = [Section(header.number, file.section_name(header), header.kind, header.flags, header.size,
                        header.alignment, file.content(header)) for header in file.sections if header.is_linked]
    relocations = {header.info: list(file.entries(header)) for header in file.relocation_sections}
    return Object(sections, file.symbols, relocations)
