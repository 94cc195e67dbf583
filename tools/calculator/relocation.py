"""Relocation: the table of types, the value that a symbol has at a site, and the field that is stored there.

From the x86-64 psABI (relocation types), narrowed to the profile of static links. S is the value of the symbol, A the
addend, P the address of the field.
"""
from dataclasses import dataclass
from typing import NamedTuple

from . import elf


class Type(NamedTuple):
    """A type of relocations: its name without R_X86_64_, the bytes of its field, whether it counts from the place, and
    the least and the greatest value, read as a signed number, where not every value fits."""
    name: str
    width: int
    is_relative: bool = False
    range: tuple = None


R_NONE = 0
SIGNED_32 = (-2 ** 31, 2 ** 31 - 1)
TYPES = {
    R_NONE: Type("NONE", 0),
    1: Type("64", 8),
    2: Type("PC32", 4, True, SIGNED_32),
    4: Type("PLT32", 4, True, SIGNED_32),
    10: Type("32", 4, False, (0, 2 ** 32 - 1)),
    11: Type("32S", 4, False, SIGNED_32),
    12: Type("16", 2, False, (-2 ** 15, 2 ** 16 - 1)),
    13: Type("PC16", 2, True, (-2 ** 15, 2 ** 15 - 1)),
    14: Type("8", 1, False, (-2 ** 7, 2 ** 8 - 1)),
    15: Type("PC8", 1, True, (-2 ** 7, 2 ** 7 - 1)),
    24: Type("PC64", 8, True),
}
WIDTHS = {number: kind.width for number, kind in TYPES.items()}


@dataclass(frozen=True)
class Field:
    """The bytes stored at a site."""
    content: bytes


@dataclass(frozen=True)
class Overflow:
    """The computed value, outside the range of its type."""
    value: int


def computed(kind, s, a, p):
    """S + A, or S + A - P for the types that are relative to the place, modulo 2^64."""
    return (s + a - (p if TYPES[kind].is_relative else 0)) % 2 ** 64


def in_range(kind, value):
    """Whether a value, read as a signed number, fits its field."""
    if TYPES[kind].range is None:
        return True
    least, greatest = TYPES[kind].range
    return least <= (value - 2 ** 64 if value >= 2 ** 63 else value) <= greatest


def field(kind, s, a, p):
    """The field of a type other than NONE, or the overflow."""
    value = computed(kind, s, a, p)
    return Field(elf.spell(value, WIDTHS[kind])) if in_range(kind, value) else Overflow(value)
