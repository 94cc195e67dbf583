"""The rules of `ldi` that are tables, each read from the one place of the crates where it is defined.

What is read are the definitions of specs/, which the code is proved to follow, and the numbers of `constants`: types of
relocations, fault lines, refusals and reserved words. Where a definition is written in another form than the one that
is looked for here, reading it fails and names the file.
"""
from __future__ import annotations

import re
from pathlib import Path
from typing import NamedTuple

CRATES = Path(__file__).resolve().parent.parent / "crates"
CONSTANTS = "elfobj_file/src/constants.rt"
KINDS = "elfobj_file/specs/RelocationKinds.antt"
FIELDS = "emit_fields/specs/Fields.antt"
FAULTS = "ldmodel/specs/Fault.antt"
FAULT_TEXT = "ldmodel/specs/FaultText.antt"
FAULT_CODE = "ldmodel/src/fault.rt"
WORDS = "ldscript_tokens/specs/Words.antt"
MODES = "ldscript_tokens/specs/Modes.antt"
TERMS = "ldscript_terms/specs/Grammar.antt"
GRAMMARS = ("ldscript/specs/Grammar.antt", TERMS)
REFUSALS = {
    "object": ("elfobj_file/specs/RefusalNumber.antt", "refusal_number"),
    "script": ("ldscript/specs/RefusalNumber.antt", "script_refusal_number"),
    "edit": ("ldmodel/specs/Edits.antt", "edit_refusal_number"),
}


class Unread(Exception):
    """A definition is not in the form that is read here."""


class Limit(NamedTuple):
    """A limit of the profile."""

    name: str
    about: str
    value: int


class Relocation(NamedTuple):
    """A type of relocations."""

    name: str
    """The psABI's, with R_X86_64_."""
    number: int
    width: int
    """The bytes of its field."""
    calculation: str
    """S + A, or S + A - P; empty for NONE."""
    range: tuple[int, int] | None
    """The least and the greatest value, read as a signed number of 64 bits; None where any value fits."""


class Word(NamedTuple):
    """A word of a fault line after its number."""

    name: str
    """As the manual calls it, in capitals; of a literal word itself."""
    kind: str
    """`name`, `number`, `hex`, or `literal`."""


class Fault(NamedTuple):
    """A fault line."""

    rule: str
    """Its case of `Fault`."""
    code: str
    words: tuple[Word, ...]

    @property
    def head(self) -> str:
        """The line with its words in capitals."""
        return " ".join([self.code, *(word.name for word in self.words)])


class Refusal(NamedTuple):
    """A refusal, under the number that is reported."""

    rule: str
    number: int


class Reserved(NamedTuple):
    """A reserved word of scripts."""

    word: str
    has_rule: bool
    """Whether a rule of the grammar has it."""
    opens_expression: bool
    """Whether its parentheses hold an expression in pattern mode."""
    asks: str
    """Of a function that has a name in its parentheses what is named, as `section`; else empty."""


def _text(path: str) -> str:
    return (CRATES / path).read_text(encoding="utf-8")


def _rows(path: str, form: str) -> list[tuple[str, ...]]:
    """The groups of each place of a file where this form is; at least one."""
    found = [match.groups() for match in re.finditer(form, _text(path), re.MULTILINE)]
    if not found:
        raise Unread(f"crates/{path} has nothing of the form {form}")
    return found


def _row(rows: dict[str, str], rule: str, path: str) -> str:
    """The row of a rule."""
    if rule not in rows:
        raise Unread(f"crates/{path} has no row of {rule}")
    return rows[rule]


def _power(text: str) -> int:
    """`2 ^ N`, `2 ^ N - 1` or a number."""
    found = re.fullmatch(r"2 \^ (\d+)(?: - (\d+))?|(\d+)", text)
    if found is None:
        raise Unread(f"crates/{FIELDS}: {text} is no number of the form that is read")
    return int(found[3]) if found[3] else (1 << int(found[1])) - int(found[2] or 0)


def _end(text: str) -> int:
    """An end of a range: `pos N` or `neg_ℤ (pos N)`."""
    found = re.fullmatch(r"(neg_ℤ \()?pos \(?([^()]+)\)?(?(1)\))", text)
    if found is None:
        raise Unread(f"crates/{FIELDS}: {text} is no end of a range of the form that is read")
    return -_power(found[2]) if found[1] else _power(found[2])


def _range(text: str) -> tuple[int, int] | None:
    """What `fits` asks of a value."""
    if text == "true":
        return None
    if found := re.fullmatch(r"nat_lt value \(([^()]+)\)", text):
        return 0, _power(found[1]) - 1
    if found := re.fullmatch(r"is_between \((.+)\) \((pos [^)]*\)?)\) value", text):
        return _end(found[1]), _end(found[2])
    raise Unread(f"crates/{FIELDS}: fits has a row of another form: {text}")


# The constants of the crates that are limits of the profile: the name outside of the crates, what it is, where it
# stands, and its name there.
LIMITS = (
    ("MAX_PAYLOAD", "The bytes that an object or a script has at most.", "ldmodel/src/edit.rt", "MAX_PAYLOAD"),
    ("MAX_OBJECT_NAME", "The bytes that an object's name has at most.", "ldmodel/src/edit.rt", "MAX_OBJECT_NAME"),
    ("MAX_OBJECTS", "The objects that a session has at most.", "ldmodel/src/edit.rt", "MAX_OBJECTS"),
    ("MAX_SCRIPT", "The bytes of a script, at most.", "ldscript_tokens/src/lexer.rt", "MAX_TEXT"),
    ("MAX_WORD", "The bytes that a NAME or a WORD has at most.", "ldscript_tokens/src/limits.rt", "MAX_WORD"),
    ("MAX_BRACES", "The braces that a script opens, at most.", "ldscript_tokens/src/limits.rt", "MAX_BRACES"),
    ("MAX_SIGNS", "The signs of a run, at most.", "ldscript_tokens/src/limits.rt", "MAX_SIGNS"),
    ("MAX_IMAGE", "The bytes of an image, at most.", "place/src/length.rt", "MAX_IMAGE_LENGTH"),
)


def limits() -> list[Limit]:
    """The limits of the profile."""
    found = []
    for name, about, path, own in LIMITS:
        (text,), = _rows(path, rf"^pub const {own}: u(?:size|\d+) = ([^;]+);")
        shift = re.fullmatch(r"1 << (\d+)", text)
        found.append(Limit(name, about, 1 << int(shift[1]) if shift else int(text.replace("_", ""), 0)))
    return found


def relocation_names() -> list[str]:
    """The psABI's names of all types of relocations, by their numbers, without `R_X86_64_`."""
    path = "readobj/src/why/psabi.rt"
    (count, names), = _rows(path, r"^const RELOCATIONS: \[&str; (\d+)\] = \[\n((?:    \"\w+\",\n)+)\];")
    found = re.findall(r"\w+", names)
    if len(found) != int(count):
        raise Unread(f"crates/{path} has {len(found)} names, and not {count}")
    return found


def relocations() -> list[Relocation]:
    """The types of relocations, by their numbers."""
    numbers = {name: int(number) for name, number in _rows(CONSTANTS, r"^pub const (R_X86_64_\w+): u32 = (\d+);$")}
    names = {kind: name for name, kind in _rows(KINDS, r"number == (R_X86_64_\w+) then Some kind\.(\w+)")}
    widths = {kind: width for kind, width in _rows(KINDS, r"^width kind\.(\w+) = (\d+)$")}
    values = {kind: value for kind, value in _rows(FIELDS, r"^calculation (\w+) s a p = (.+)$")}
    ranges = {kind: test for kind, test in _rows(FIELDS, r"^fits (\w+) value = (.+)$")}
    spelled = {"pos 0": "", "s +ℤ a": "S + A", "s +ℤ a -ℤ p": "S + A - P"}
    return sorted((Relocation(name, numbers[name], int(_row(widths, kind, KINDS)),
                              _row(spelled, _row(values, kind, FIELDS), FIELDS), _range(_row(ranges, kind, FIELDS)))
                   for kind, name in names.items()), key=lambda row: row.number)


def _words(text: str, names: list[str], head: str) -> tuple[Word, ...]:
    """The words of a row of `fault_words` after its number, by the names that they have in the code's comment."""
    parts = text.removesuffix(" ∷ []").split(" ∷ ")[1:]
    if len(parts) != len(names):
        raise Unread(f"crates/{FAULT_CODE}: {head} has not the words of fault_words in crates/{FAULT_TEXT}")
    kinds = {"codes": "literal", "decimal": "number", "hex": "hex"}
    return tuple(Word(name, kinds.get(part.partition(" ")[0], "name")) for part, name in zip(parts, names))


def faults() -> list[Fault]:
    """The fault lines, in the order of `Fault`, which is that of the phases."""
    cases = [case for case, in _rows(FAULTS, r"^  (\w+) :")]
    joined = re.sub(r" =\s+", " = ", _text(FAULT_TEXT))
    lines = {case: words for case, words in re.findall(r"^fault_words \(?fault\.(\w+)[^=]*= (.+)$", joined, re.M)}
    heads = {case: head for head, case in _rows(FAULT_CODE, r"^    /// `(F\d+[^`]*)`:.*\n(?:    ///.*\n)*    (\w+)")}
    found = []
    for case in cases:
        code, *names = _row(heads, case, FAULT_CODE).split()
        words = _row(lines, case, FAULT_TEXT)
        if not words.startswith(f'codes "{code}" ∷ '):
            raise Unread(f"crates/{FAULT_TEXT}: the line of {case} does not begin with {code}, as its comment says")
        found.append(Fault(case, code, _words(words, names, heads[case])))
    return found


def refusals(of: str) -> list[Refusal]:
    """The refusals of an `object`, a `script` or an `edit`, by their numbers."""
    path, function = REFUSALS[of]
    rows = _rows(path, rf"^{function} \(?(\w+)[^=:]*= (\d+)$")
    return sorted((Refusal(rule, int(number)) for rule, number in rows), key=lambda row: row.number)


def _listed(path: str, name: str) -> set[str]:
    """The words of a list."""
    found = re.search(rf"^{name} =(.*?)∷ \[\]", _text(path), re.M | re.S)
    if found is None:
        raise Unread(f"crates/{path} has no list {name} of the form that is read")
    return set(re.findall(r'codes\s+"(\w+)"', found[1]))


def reserved() -> list[Reserved]:
    """The reserved words of scripts, in the order of the alphabet."""
    with_rule = {word for path in GRAMMARS for word in re.findall(r'"([A-Z_]+)"', _text(path))}
    opening = _listed(MODES, "stretch_words")
    asking = {word: asked.lower() for word, asked in _rows(TERMS, r'\(codes "(\w+)"\) then Asks([A-Z][a-z]+) ')}
    return [Reserved(word, word in with_rule, word in opening, asking.get(word, ""))
            for word in sorted(_listed(WORDS, "reserved_words") | opening | set(asking))]
