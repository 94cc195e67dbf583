"""The tail of an image: its symbol table, two string tables and section headers (gABI, sections and symbols)."""
from dataclasses import dataclass

from . import elf, gathering
from .elf import align_up, spell
from .names import Case
from .targets import NotInOutput

NAMED = (Case.STRONG, Case.SCRIPT, Case.COMMON, Case.WEAK, Case.PROVIDED)
TABLES = (".symtab", ".strtab", ".shstrtab")


def symbols(output):
    """(name, value, decision) of each name that has a meaning, in byte order; None where its piece isn't there."""
    found = []
    for name in output.decisions.names:
        decision = output.decisions.of(name)
        if decision.case in NAMED:
            try:
                found.append((name, output.name_value(name), decision))
            except NotInOutput:
                found.append((name, None, decision))
    return found


def string_table(names):
    """A zero, then each name ended by a zero; nothing is shared."""
    return b"\0" + b"".join(elf.data_of(name) + b"\0" for name in names)


def name_offsets(names):
    """Where each name stands in its string table, from 1 on."""
    found, at = [], 1
    for name in names:
        found.append(at)
        at += len(name) + 1
    return found


def symbol_kind(decision):
    """The entry's own type for Strong and Weak (OBJECT for COMMON), OBJECT for a common block, else NOTYPE."""
    if decision.case in (Case.STRONG, Case.WEAK):
        kind = decision.entry.symbol.kind
        return elf.STT_OBJECT if kind == elf.STT_COMMON else kind
    return elf.STT_OBJECT if decision.case is Case.COMMON else elf.STT_NOTYPE


def symbol_section(output, decision):
    """The number of the output section that holds the piece; ABS for an absolute entry and the script's symbols."""
    if decision.case in (Case.SCRIPT, Case.PROVIDED):
        return elf.SHN_ABS
    if decision.case is not Case.COMMON and decision.entry.symbol.section == elf.SHN_ABS:
        return elf.SHN_ABS
    return output.home(gathering.piece_of(decision)).section


def symbol_size(decision):
    """The entry's own size, a common block's size, or 0."""
    if decision.case in (Case.STRONG, Case.WEAK):
        return decision.entry.symbol.size
    return decision.size if decision.case is Case.COMMON else 0


def symbol_entry(output, at, value, decision):
    """st_name, st_info (WEAK for Weak, else GLOBAL), st_other 0, st_shndx, st_value, st_size."""
    binding = elf.STB_WEAK if decision.case is Case.WEAK else elf.STB_GLOBAL
    return (spell(at, 4) + spell(binding << 4 | symbol_kind(decision), 1) + b"\0"
            + spell(symbol_section(output, decision), 2) + spell(value, 8) + spell(symbol_size(decision), 8))


def symbol_table(output):
    """24 zeros, then an entry for each symbol that has a value; and the string table of their names."""
    valued = [(name, value, decision) for name, value, decision in symbols(output) if value is not None]
    names = [name for name, _, _ in valued]
    entries = [symbol_entry(output, at, value, decision)
               for at, (_, value, decision) in zip(name_offsets(names), valued)]
    return bytes(elf.SYMBOL_SIZE) + b"".join(entries), string_table(names)


def section_header(name=0, kind=0, flags=0, address=0, offset=0, size=0, link=0, info=0, alignment=0, entry_size=0):
    """The 64 bytes of a section header."""
    return (spell(name, 4) + spell(kind, 4) + spell(flags, 8) + spell(address, 8) + spell(offset, 8) + spell(size, 8)
            + spell(link, 4) + spell(info, 4) + spell(alignment, 8) + spell(entry_size, 8))


def output_header(placed, name, offset):
    """PROGBITS with file bytes, else NOBITS; the section's alignment, or 1 where the start is no multiple of it."""
    kind = elf.SHT_PROGBITS if placed.has_file_bytes else elf.SHT_NOBITS
    alignment = placed.alignment if placed.start % placed.alignment == 0 else 1
    return section_header(name, kind, elf.SHF_ALLOC | placed.flags, placed.start, offset, placed.size,
                          alignment=alignment)


@dataclass(frozen=True)
class Tail:
    """The bytes from the end of the segments on; the offset of the section headers and their number."""
    content: bytes
    table: int
    count: int


def tail(output, layout):
    """`.symtab` at a multiple of 8, `.strtab` and `.shstrtab` right after it, the headers at the next multiple of 8."""
    sections = output.placement.sections
    names = [placed.section.name for placed in sections] + list(TABLES)
    entries, strings = symbol_table(output)
    section_names = string_table(names)
    start = align_up(layout.end, 8)
    string_start = start + len(entries)
    section_start = string_start + len(strings)
    end = section_start + len(section_names)
    table = align_up(end, 8)
    at = name_offsets(names)
    k = len(sections)
    headers = [section_header()]
    headers += [output_header(placed, offset, layout.offset_of(placed)) for placed, offset in zip(sections, at)]
    headers.append(section_header(at[k], elf.SHT_SYMTAB, offset=start, size=len(entries), link=k + 2, info=1,
                                  alignment=8, entry_size=elf.SYMBOL_SIZE))
    headers.append(section_header(at[k + 1], elf.SHT_STRTAB, offset=string_start, size=len(strings), alignment=1))
    headers.append(section_header(at[k + 2], elf.SHT_STRTAB, offset=section_start, size=len(section_names),
                                  alignment=1))
    content = (bytes(start - layout.end) + entries + strings + section_names + bytes(table - end) + b"".join(headers))
    return Tail(content, table, k + 4)
