"""The map of a link, read into tables (docs/manual.md, 'The map')."""
from __future__ import annotations

from dataclasses import dataclass, field

NO_VALUE = b"-" * 16
"""The value of a symbol whose section is not in the output."""


@dataclass(frozen=True)
class Piece:
    """An input section in an output section."""

    address: int
    size: int
    object: bytes
    section: bytes


@dataclass(frozen=True)
class Section:
    """An output section with its input sections, in the order of the script."""

    name: bytes
    start: int
    load: int
    size: int
    flags: bytes
    pieces: list[Piece] = field(default_factory=list)


@dataclass(frozen=True)
class Symbol:
    """A name that is not local; its value is none where its section is not in the output."""

    value: int | None
    name: bytes
    owner: bytes


@dataclass
class LinkMap:
    """A whole map."""

    entry: int = 0
    sections: list[Section] = field(default_factory=list)
    symbols: list[Symbol] = field(default_factory=list)

    def pieces(self) -> list[Piece]:
        """All input sections in the output."""
        return [piece for section in self.sections for piece in section.pieces]


class BadMap(Exception):
    """A text that is no map of `ldi`; the text says at which line."""


def read_map(data: bytes) -> LinkMap:
    """The map of a text."""
    result = LinkMap()
    for number, line in enumerate(data.splitlines(), 1):
        try:
            _take(result, line.split(b" "))
        except (ValueError, IndexError):
            text = "".join(char if char.isprintable() else "?" for char in line[:80].decode(errors="replace"))
            raise BadMap(f"line {number} is no line of a map: {text}") from None
    return result


def _take(result: LinkMap, words: list[bytes]) -> None:
    """Takes a line's words."""
    match words:
        case [b"piece", address, size, owner, name]:
            result.sections[-1].pieces.append(Piece(int(address, 16), int(size, 16), owner, name))
        case [b"symbol", value, name, owner]:
            result.symbols.append(Symbol(None if value == NO_VALUE else int(value, 16), name, owner))
        case [b"section", name, start, load, size, flags]:
            result.sections.append(Section(name, int(start, 16), int(load, 16), int(size, 16), flags))
        case [b"entry", value]:
            result.entry = int(value, 16)
        case _:
            raise ValueError
