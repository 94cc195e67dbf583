"""The image: its length, and each of its bytes by the first case that holds.

The cases are: the file header, a program header; in an output section with file bytes a field, a piece, a data command,
a gap; the tail; else 0. `byte_at` is that definition. `image` writes the same bytes run by run.
"""
from bisect import bisect_left

from . import elf
from .elf import spell
from .layout import PlacedData


def file_header(entry, layout, tail):
    """The 64 bytes of the ELF header; e_phoff is 0 without segments."""
    count = len(layout.segments)
    program_table = elf.FILE_HEADER_SIZE if count > 0 else 0
    return (elf.IDENT + bytes(9) + spell(elf.ET_EXEC, 2) + spell(elf.EM_X86_64, 2) + spell(elf.EV_CURRENT, 4)
            + spell(entry, 8) + spell(program_table, 8) + spell(tail.table, 8) + spell(0, 4)
            + spell(elf.FILE_HEADER_SIZE, 2) + spell(elf.PROGRAM_HEADER_SIZE, 2) + spell(count, 2)
            + spell(elf.SECTION_HEADER_SIZE, 2) + spell(tail.count, 2) + spell(tail.count - 1, 2))


def program_header(segment):
    """The 56 bytes of a PT_LOAD."""
    return (spell(elf.PT_LOAD, 4) + spell(segment.flags, 4) + spell(segment.offset, 8) + spell(segment.address, 8)
            + spell(segment.load, 8) + spell(segment.file_size, 8) + spell(segment.memory_size, 8) + spell(4_096, 8))


def headers(entry, layout, tail):
    """The file header and, right after it, the program headers in ascending order of addresses."""
    return file_header(entry, layout, tail) + b"".join(map(program_header, layout.table))


def span(content):
    """The addresses of a piece or of the bytes of a data command."""
    size = len(content.content) if isinstance(content, PlacedData) else content.piece.size
    return content.address, content.address + size


def gaps(placed):
    """The longest runs of an output section that no piece and no data command covers."""
    found, at = [], placed.start
    for content in placed.contents:
        first, end = span(content)
        if end > first:
            found.append((at, first))
            at = end
    return [(first, end) for first, end in found + [(at, placed.end)] if end > first]


def fill_byte(fill, at):
    """Byte `at` of a gap: that of the fill, again and again, or 0."""
    return fill[at % len(fill)] if fill else 0


class Link:
    """What the bytes of a good link depend on. The fields are by their places."""

    def __init__(self, placement, layout, entry, fields, tail):
        self.placement, self.layout, self.fields, self.tail = placement, layout, fields, tail
        self.headers = headers(entry, layout, tail)
        self.length = layout.end + len(tail.content)

    def file_sections(self):
        """(offset, section) of each output section with file bytes."""
        return [(self.layout.offset_of(placed), placed) for placed in self.placement.sections if placed.has_file_bytes]


def byte_at(link, offset):
    """The byte of the image at an offset below its length."""
    if offset < len(link.headers):
        return link.headers[offset]
    for start, placed in link.file_sections():
        if start <= offset < start + placed.size:
            return section_byte(link, placed, placed.start + offset - start)
    if offset >= link.layout.end:
        return link.tail.content[offset - link.layout.end]
    return 0


def section_byte(link, placed, address):
    """The byte at an address of an output section with file bytes: field, else piece, else data command, else gap."""
    for place, content in link.fields.items():
        if place <= address < place + len(content):
            return content[address - place]
    for content in placed.contents:
        first, end = span(content)
        if first <= address < end:
            return content_bytes(content)[address - first]
    for first, end in gaps(placed):
        if first <= address < end:
            return fill_byte(placed.section.fill, address - first)
    raise AssertionError("every byte of a section is covered")


def content_bytes(content):
    """The bytes of a data command; those of a piece, which are 0 for NOBITS and common blocks."""
    if isinstance(content, PlacedData):
        return content.content
    return content.piece.content if content.piece.kind != elf.SHT_NOBITS else bytes(content.piece.size)


def section_bytes(placed):
    """An output section's bytes without its fields: contents and gaps, run by run."""
    data = bytearray(placed.size)
    for content in placed.contents:
        first, end = span(content)
        data[first - placed.start:end - placed.start] = content_bytes(content)
    for first, end in gaps(placed):
        fill = placed.section.fill or b"\0"
        data[first - placed.start:end - placed.start] = (fill * ((end - first) // len(fill) + 1))[:end - first]
    return data


def image(link):
    """All bytes of the image, `byte_at` at 0, 1, .. up to its length."""
    data = bytearray(link.layout.end)
    data[0:len(link.headers)] = link.headers
    places = sorted(link.fields)
    for start, placed in link.file_sections():
        data[start:start + placed.size] = section_bytes(placed)
        for place in places[bisect_left(places, placed.start):bisect_left(places, placed.end)]:
            content = link.fields[place]
            data[start + place - placed.start:start + place - placed.start + len(content)] = content
    return bytes(data) + link.tail.content
