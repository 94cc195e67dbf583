"""What two images say, and how they differ."""
from __future__ import annotations

import re
import struct
import zlib
from collections.abc import Mapping
from dataclasses import dataclass, field
from itertools import zip_longest

from tests.object_file import ALLOC, EXECUTABLE, NOBITS, RELA, SYMBOL, Header, ObjectFile

SEGMENT = struct.Struct("<IIQQQQQQ")
MAPPED = re.compile(r"^(\S+)\s+(0x[0-9a-f]+)\s+(0x[0-9a-f]+)(?: load address (0x[0-9a-f]+))?$", re.M)
"""An output section in GNU ld's map."""
Loads = Mapping[tuple[str, int, int], int]
"""Load addresses by the names, addresses and sizes of output sections."""
NOPS = frozenset(b"\x66\x2e\x0f\x1f\x84\x00\x40\x44\x80\x90")
"""The bytes that GNU ld fills gaps in code with, where `ldi` has 0."""


Other = tuple[str, tuple[int | str, ...], bytes | None]
"""Name, header and bytes of a section that is empty or not loaded."""


@dataclass
class Section:
    """An output section that is loaded and not empty."""

    name: str
    address: int
    size: int
    load: int
    """-1 where no segment has it."""
    data: bytes | None
    code: bool
    header: tuple[int | str, ...] = ()
    """What its section header says but for its place."""


@dataclass
class Image:
    """What an image says."""

    entry: int = 0
    sections: list[Section] = field(default_factory=list)
    symbols: dict[str, int] = field(default_factory=dict)
    local: dict[str, int] = field(default_factory=dict)
    others: list[Other] = field(default_factory=list)
    """Names, headers and bytes of the sections that are empty or not loaded, but for the file's own tables."""


def loads_of(text: str) -> Loads:
    """The load addresses of the output sections in GNU ld's map."""
    return {(name, int(address, 16), int(size, 16)): int(load or address, 16)
            for name, address, size, load in MAPPED.findall(text)}


def read_image(data: bytes, mapped: Loads | None = None) -> Image:
    """The sections, the symbols and the entry of an image. Of GNU ld's the map is given too."""
    file = ObjectFile(data)
    at, = struct.unpack_from("<Q", data, 32)
    count, = struct.unpack_from("<H", data, 56)
    segments = [SEGMENT.unpack_from(data, at + 56 * number) for number in range(count)]
    image = Image(struct.unpack_from("<Q", data, 24)[0])
    headers = file.headers
    for number, header in enumerate(headers):
        if header.flags & ALLOC and header.size:
            name = file.section_name(number).decode("latin-1")
            contents = None if header.kind == NOBITS else data[header.offset:header.offset + header.size]
            load = _load(header, segments, (mapped or {}).get((name, header.address, header.size), -1))
            image.sections.append(Section(name, header.address, header.size, load, contents,
                                          bool(header.flags & EXECUTABLE), _said(file, header)))
        elif number and not _is_own_table(file, number):
            contents = None if header.kind == NOBITS else data[header.offset:header.offset + header.size]
            said = (header.address, header.size, *_said(file, header))
            image.others.append((file.section_name(number).decode("latin-1"), said, contents))
        if header.kind == 2:
            names = headers[header.link].offset
            for name_at, info, _, section, value, _ in SYMBOL.iter_unpack(
                    data[header.offset:header.offset + header.size]):
                end = data.index(b"\0", names + name_at)
                name = data[names + name_at:end].decode("latin-1")
                if section and (info >> 4 or info & 15 == 0):
                    (image.symbols if info >> 4 else image.local)[name] = value
    return image


def _said(file: ObjectFile, header: Header) -> tuple[int | str, ...]:
    """What a section header says, but for name and places; other sections by their names."""
    named = [file.section_name(number).decode("latin-1") for number in (header.link, header.info)]
    info = named[1] if header.kind == RELA else header.info
    return header.kind, header.flags, named[0], info, header.alignment, header.entry_size


def _is_own_table(file: ObjectFile, number: int) -> bool:
    """Whether a section is the table of symbols, that of their names, or that of the names of sections."""
    table = file.symbol_table()
    names = () if table is None else (table, file.headers[table].link)
    return number in (file.names_in, *names)


def _load(header: Header, segments: list[tuple[int, ...]], mapped: int) -> int:
    """The load address by the segment that has a section at its place in the file; without one, of what has no bytes,
    by one that has its addresses. Where several have these, GNU ld's map says which, as the place in its file of what
    has no bytes says nothing: a segment of other sections may have it by chance."""
    address, size, bits = header.address, header.size, header.kind != NOBITS
    inside = [(load + address - start, header.offset - offset == address - start)
              for kind, _, offset, start, load, filed, memory, _ in segments
              if kind == 1 and start <= address and address + size <= start + (filed if bits else memory)]
    exact = [load for load, same in inside if same]
    loads = {load for load, _ in inside}
    if mapped in loads and not bits:
        return mapped
    if exact or bits:
        return exact[0] if exact else -1
    return loads.pop() if len(loads) == 1 else -1


def differences(gnu: Image, ldi: Image, with_headers: bool = False) -> list[str]:
    """What is another in the image of `ldi`; `with_headers` in the names and headers of sections too."""
    found: list[str] = []
    rest = list(ldi.sections)
    for one in gnu.sections:
        match = next((other for other in rest if other.address == one.address and other.size == one.size), None)
        if match is None:
            here = [f"{s.address:#x} {s.size:#x}" for s in ldi.sections if s.name == one.name]
            found.append(f"section {one.name} {one.address:#x} {one.size:#x}: {' '.join(here) or 'none'}")
            continue
        rest.remove(match)
        headers = [(s.name, *s.header) for s in (one, match)]
        if with_headers and headers[0] != headers[1]:
            found.append(f"header of {one.address:#x}: {headers[0]} {headers[1]}")
        if one.load >= 0 and one.load != match.load:
            found.append(f"load address of {one.name} {one.load:#x}: {match.load:#x}")
        if one.load < 0:
            continue
        if (one.data is None) != (match.data is None):
            found.append(f"file bytes of {one.name}: {one.data is not None} {match.data is not None}")
        elif one.data is not None and match.data is not None and not _same_bytes(one, match.data):
            at = next(i for i in range(one.size) if not _same_byte(one.data[i], match.data[i], one.code))
            found.append(f"bytes of {one.name} at {at:#x}: {one.data[at:at + 8].hex()} {match.data[at:at + 8].hex()}")
    found += [f"section {other.name} {other.address:#x} {other.size:#x}: not in GNU ld's" for other in rest]
    if with_headers:
        pairs = zip_longest(*(sorted(image.others, key=lambda one: str(one[:2])) for image in (gnu, ldi)))
        found += [f"another section: {_words(one)}: {_words(other)}" for one, other in pairs if not _alike(one, other)]
    for name, value in gnu.symbols.items():
        if ldi.symbols.get(name) != value:
            own = ldi.symbols.get(name)
            found.append(f"symbol {name} {value:#x}: {'none' if own is None else hex(own)}")
    for name, value in gnu.local.items():
        if name in ldi.symbols and ldi.symbols[name] != value:
            found.append(f"symbol {name} {value:#x}: {ldi.symbols[name]:#x}")
    if gnu.entry != ldi.entry:
        found.append(f"entry {gnu.entry:#x}: {ldi.entry:#x}")
    return found


def _alike(one: Other | None, other: Other | None) -> bool:
    """Whether two sections are the same, but for what fills gaps in code."""
    if one is None or other is None or one[:2] != other[:2]:
        return False
    is_code = bool(int(one[1][3]) & EXECUTABLE)
    return one[2] == other[2] or all(_same_byte(a, b, is_code) for a, b in zip(one[2] or b"", other[2] or b""))


def _words(section: Other | None) -> str:
    """A section that is empty or not loaded, in words."""
    if section is None:
        return "none"
    name, said, contents = section
    return f"{name} {said} {zlib.crc32(contents or b''):x}"


def segment_differences(gnu: bytes, own: bytes) -> list[str]:
    """How program headers are others."""
    found = []
    for data in (gnu, own):
        at, = struct.unpack_from("<Q", data, 32)
        count, = struct.unpack_from("<H", data, 56)
        found.append([" ".join(f"{word:x}" for word in SEGMENT.unpack_from(data, at + 56 * number))
                      for number in range(count)])
    theirs, mine = found
    return [f"program headers: {', '.join(one for one in theirs if one not in mine)}: "
            f"{', '.join(one for one in mine if one not in theirs)}"] if theirs != mine else []


def _same_bytes(one: Section, data: bytes) -> bool:
    assert one.data is not None
    return one.data == data or all(_same_byte(a, b, one.code) for a, b in zip(one.data, data))


def _same_byte(gnu: int, ldi: int, code: bool) -> bool:
    return gnu == ldi or code and ldi == 0 and gnu in NOPS
