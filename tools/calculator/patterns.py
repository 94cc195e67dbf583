"""Name patterns of input statements: their parts, and what they match (GNU ld manual, Input Section Wildcards).

`*` and `?` match `/` too, in file names as in section names: this profile's choice.
"""
import re
from dataclasses import dataclass
from functools import lru_cache

from .tokens import Refused

SET_BYTES = re.compile(r"[A-Za-z0-9_.$/*?-]+")


@dataclass(frozen=True)
class AnyRun:
    """`*`: any run of bytes, also none."""


@dataclass(frozen=True)
class AnyByte:
    """`?`: one byte."""


@dataclass(frozen=True)
class OneOf:
    """A set in brackets: one byte of any of its ranges, both ends in. A range may have no byte."""
    ranges: tuple


@dataclass(frozen=True)
class Literal:
    """One byte that stands for itself."""
    byte: str


@lru_cache(maxsize=None)
def pattern(word):
    """The parts of a word, from the left; refusal 2 for a bad set or a `]` outside a set."""
    parts, at = [], 0
    while at < len(word):
        part, at = next_part(word, at)
        parts.append(part)
    return tuple(parts)


def next_part(word, at):
    """The part that begins here, and where the next one does."""
    sign = word[at]
    if sign == "*":
        return AnyRun(), at + 1
    if sign == "?":
        return AnyByte(), at + 1
    if sign == "\\":
        return Literal(word[at + 1]), at + 2
    if sign == "[":
        end = word.find("]", at)
        return set_of(word[at + 1:end] if end >= 0 else ""), end + 1
    if sign == "]":
        raise Refused(2)
    return Literal(sign), at + 1


def set_of(text):
    """The ranges of a set, read from the left: `x-y` is a range, any other byte is itself."""
    if not SET_BYTES.fullmatch(text):
        raise Refused(2)
    ranges, at = [], 0
    while at < len(text):
        if text[at + 1:at + 2] == "-" and at + 2 < len(text):
            ranges.append((text[at], text[at + 2]))
            at += 3
        else:
            ranges.append((text[at], text[at]))
            at += 1
    return OneOf(tuple(ranges))


def meets(part, byte):
    """Whether a part other than `*` is met by this byte."""
    if isinstance(part, AnyByte):
        return True
    if isinstance(part, OneOf):
        return any(first <= byte <= last for first, last in part.ranges)
    return part.byte == byte


@lru_cache(maxsize=None)
def matches(parts, name):
    """Whether the whole name splits into pieces, one for each part, each met by its part.

    `ends` are the places up to which the parts so far can have been met.
    """
    ends = {0}
    for part in parts:
        if isinstance(part, AnyRun):
            ends = set(range(min(ends), len(name) + 1)) if ends else ends
        else:
            ends = {end + 1 for end in ends if end < len(name) and meets(part, name[end])}
    return len(name) in ends
