"""Links by GNU ld and by `ldi`, and what is different between the two images."""
from __future__ import annotations

import struct
import subprocess
from dataclasses import dataclass, field

from tests.programs import LDI

_SECTION = struct.Struct("<IIQQQQIIQQ")
_SEGMENT = struct.Struct("<IIQQQQQQ")
_SYMBOL = struct.Struct("<IBBHQQ")


@dataclass
class Placed:
    """What an image says of its output sections and its symbols."""

    sections: list[tuple[str, int, int, int]] = field(default_factory=list)
    """Name, address, size, load address (of a section that takes no bytes of the file: -1), in their order."""
    symbols: dict[str, int] = field(default_factory=dict)
    local: dict[str, int] = field(default_factory=dict)
    """Local symbols without a type: hidden ones of the script, and labels of objects."""


class LinkFailed(Exception):
    """A linker that gives no image; `str()` is what it says."""


def link_ldi(script: str, objects: list[str], out: str) -> Placed:
    """Links by `ldi`, and reads its map."""
    command = [LDI, "link", "-T", script, "-o", out, "--Map", out + ".map", *objects]
    done = subprocess.run(command, capture_output=True, text=True, timeout=300, check=False)
    if done.returncode:
        raise LinkFailed(done.stderr.strip() or f"status {done.returncode}")
    with open(out + ".map", "rb") as file:
        return read_map(file.read())


def read_map(data: bytes) -> Placed:
    """What a map of `ldi` says."""
    placed = Placed()
    for line in data.decode("latin-1").splitlines():
        words = line.split()
        if words[0] == "section":
            placed.sections.append((words[1], int(words[2], 16), int(words[4], 16), int(words[3], 16)))
        elif words[0] == "symbol" and words[1][0] != "-":
            placed.symbols[words[2]] = int(words[1], 16)
    return placed


def link_gnu(script: str, objects: list[str], out: str, options: tuple[str, ...] = ()) -> Placed:
    """Links by GNU ld, and reads the image."""
    command = ["ld.bfd", "-static", "--no-warn-rwx-segments", "--no-warn-execstack", *options, "-T", script, "-o", out,
               *objects]
    done = subprocess.run(command, capture_output=True, text=True, timeout=300, check=False)
    if done.returncode:
        raise LinkFailed(done.stderr.strip() or f"status {done.returncode}")
    with open(out, "rb") as file:
        return read_image(file.read())


def read_image(data: bytes) -> Placed:
    """The sections with ALLOC and the symbols of an ELF-64 image."""
    phoff, shoff = struct.unpack_from("<QQ", data, 32)
    phnum, = struct.unpack_from("<H", data, 56)
    shnum, names = struct.unpack_from("<HH", data, 60)
    segments = [_SEGMENT.unpack_from(data, phoff + 56 * i) for i in range(phnum)]
    headers = [_SECTION.unpack_from(data, shoff + 64 * i) for i in range(shnum)]
    placed = Placed()
    for header in headers:
        if header[2] & 2:
            name = _text(data, headers[names][4] + header[0])
            placed.sections.append((name, header[3], header[5], _load(header, segments)))
        if header[1] == 2:
            strings = headers[header[6]][4]
            for at in range(header[4], header[4] + header[5], 24):
                name, info, _, shndx, value, _ = _SYMBOL.unpack_from(data, at)
                if shndx and (info >> 4 or info & 15 == 0):
                    (placed.symbols if info >> 4 else placed.local)[_text(data, strings + name)] = value
    return placed


def _load(header: tuple[int, ...], segments: list[tuple[int, ...]]) -> int:
    """The load address of a section by the segment that has it; -1 without one."""
    address, size = header[3], header[5]
    for kind, _, offset, vaddr, paddr, _, memsz, _ in segments:
        if kind == 1 and vaddr <= address and address + size <= vaddr + memsz and size \
                and (header[1] == 8 or header[4] - offset == address - vaddr):
            return paddr + address - vaddr
    return -1


def _text(data: bytes, at: int) -> str:
    return data[at:data.index(b"\0", at)].decode("latin-1")


def differences(gnu: Placed, ldi: Placed, ignored: str = "") -> list[str]:
    """What is another in the image of `ldi`: sections of GNU ld's image that are not empty, and its symbols.

    That the symbol `ignored` is not there is no difference.
    """
    found: list[str] = []
    own = [section for section in ldi.sections if section[2]]
    for name, address, size, load in gnu.sections:
        if not size:
            continue
        match = [s for s in own if s[1] == address and s[2] == size and (s[0] == name or s[0].startswith(name + "."))]
        if not match:
            here = [f"{s[0]} {s[1]:#x} {s[2]:#x}" for s in own if s[0] == name]
            found.append(f"section {name} {address:#x} {size:#x}: {' '.join(here) or 'none'}")
        elif load >= 0 and match[0][3] != load:
            found.append(f"load address of {name} {load:#x}: {match[0][3]:#x}")
    hidden = {name: value for name, value in gnu.local.items() if name in ldi.symbols}
    for name, value in {**hidden, **gnu.symbols}.items():
        if name not in ldi.symbols and name != ignored:
            found.append(f"symbol {name} {value:#x}: none")
        elif ldi.symbols.get(name, value) != value:
            found.append(f"symbol {name} {value:#x}: {ldi.symbols[name]:#x}")
    return found
