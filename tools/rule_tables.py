"""What stands outside the crates of the rules that are tables: the module of the front end, and the tables of the
documents.

The rows come from the crates (tools/rule_rows.py), words for people from tools/rules.toml. In a document a table stands
between `<!-- rules: NAME -->` and `<!-- /rules -->`.
"""
from __future__ import annotations

import json
import re
import textwrap
import tomllib
from collections.abc import Callable, Iterator
from pathlib import Path
from typing import Any, NamedTuple

import rule_rows
from rule_rows import Fault, Refusal

ROOT = Path(__file__).resolve().parent.parent
WORDS = "tools/rules.toml"
FRONT = "front/src/report/rules.rs"
LIMITS = "front/src/profile/limits.rs"
LONGEST = 120
NO_MEMORY = "NoMemory"


class Rules(NamedTuple):
    """All rows, and the words for people."""

    relocations: list[rule_rows.Relocation]
    relocation_names: list[str]
    limits: list[rule_rows.Limit]
    faults: list[Fault]
    refusals: dict[str, list[Refusal]]
    reserved: list[rule_rows.Reserved]
    words: dict[str, Any]


def read() -> Rules:
    """All rules. Fails where a rule has no words, or words have no rule."""
    with open(ROOT / WORDS, "rb") as file:
        words = tomllib.load(file)
    found = Rules(rule_rows.relocations(), rule_rows.relocation_names(), rule_rows.limits(), rule_rows.faults(),
                  {of: rule_rows.refusals(of) for of in rule_rows.REFUSALS}, rule_rows.reserved(), words)
    named = {"phase": [rule for phase in words["phase"] for rule in phase["faults"]],
             **{of: list(words[of]) for of in found.refusals}}
    there = {"phase": [fault.rule for fault in found.faults],
             **{of: [row.rule for row in rows] for of, rows in found.refusals.items()}}
    for part, rules in there.items():
        if named[part] != rules:
            odd = sorted(set(named[part]) ^ set(rules)) or "another order"
            raise rule_rows.Unread(f"{WORDS}: [{part}] has not the rules of the crates in their order: {odd}")
    return found


# The front end

def _forms(rules: Rules) -> dict[str, tuple[str, tuple[str, ...]]]:
    """The number of each fault line, and what each of its words is: a literal word stands for itself."""
    spaced = rules.words["spaced"]
    found = {}
    for fault in rules.faults:
        kinds = [word.name if word.kind == "literal" else word.kind for word in fault.words]
        if fault.rule in spaced:
            kinds[[word.name for word in fault.words].index(spaced[fault.rule])] = "text"
        found[fault.rule] = fault.code, tuple(kinds)
    return found


def _sentences(rules: Rules, of: str) -> dict[int, str]:
    """The sentence for each refusal, by number."""
    words = rules.words[of]
    texts = {rule: word if isinstance(word, str) else word["sentence"] for rule, word in words.items()}
    return {row.number: re.sub(r"\s+", " ", texts[row.rule])
            for row in rules.refusals[of] if of == "edit" or row.rule != NO_MEMORY}


FRONT_TYPES = '''//! The rules of `ldi` that are tables. `tools/rules` writes this file: do not edit it.

use Word::{Hex, Literal, Name, Number, Text};

/// A type of relocations that `ldi` links (psABI for x86-64, 'Relocation Types').
#[derive(Clone, Copy, PartialEq, Eq, Debug)]
pub struct RelocationRule {
    /// Its number.
    pub number: u32,
    /// Its name.
    pub name: &'static str,
    /// The bytes of its field.
    pub width: u8,
    /// The least and the greatest value that fits, if not every value does.
    pub range: Option<(i64, i64)>,
    /// Whether it counts from the place of its field.
    pub is_pc_relative: bool,
}

type Range = Option<(i64, i64)>;

const fn row(number: u32, name: &'static str, width: u8, range: Range, is_pc_relative: bool) -> RelocationRule {
    RelocationRule { number, name, width, range, is_pc_relative }
}

/// What a word of a fault line is.
#[derive(Clone, Copy, PartialEq, Eq, Debug)]
pub enum Word {
    /// A name, without a space.
    Name,
    /// A number in decimal.
    Number,
    /// A number of 16 hexadecimal digits.
    Hex,
    /// All that follows in the line.
    Text,
    /// This word itself.
    Literal(&'static str),
}

/// A fault line: its number, its rule and its words.
#[derive(Clone, Copy, PartialEq, Eq, Debug)]
pub struct FaultForm {
    /// `F1` to `F15`
    pub code: &'static str,
    /// The rule.
    pub rule: FaultRule,
    /// What follows the number.
    pub words: &'static [Word],
}
'''


def _texts(name: str, texts: dict[int, str], about: str) -> list[str]:
    """A table of sentences of the front end's module."""
    lines = [f"/// {about}", "#[rustfmt::skip]", f"pub const {name}: &[(u32, &str)] = &["]
    for number, text in texts.items():
        shown = json.dumps(text, ensure_ascii=False)[1:-1]
        parts = [shown] if len(shown) < LONGEST - 16 else ["", *textwrap.wrap(shown, LONGEST - 14)]
        lines.append(f'    ({number}, "' + " \\\n        ".join(parts).lstrip() + '"),')
    return [*lines, "];", ""]


def _words(kinds: tuple[str, ...]) -> str:
    known = {"name": "Name", "number": "Number", "hex": "Hex", "text": "Text"}
    return ", ".join(known.get(kind, f"Literal({json.dumps(kind)})") for kind in kinds)


def front(rules: Rules) -> str:
    """The front end's module."""
    lines = [FRONT_TYPES, "/// The types of relocations.", "pub const RELOCATIONS: &[RelocationRule] = &["]
    for row in rules.relocations:
        limits = f"Some({row.range})" if row.range else "None"
        relative = "true" if row.calculation.endswith("P") else "false"
        lines.append(f'    row({row.number}, "{row.name}", {row.width}, {limits}, {relative}),')
    lines += ["];", "", "/// The psABI's names of all types of relocations, by their numbers, without `R_X86_64_`.",
              f"pub const RELOCATION_NAMES: [&str; {len(rules.relocation_names)}] = ["]
    lines += [f'    "{name}",' for name in rules.relocation_names]
    lines += ["];", "", "/// The rules of fault lines.", "#[derive(Clone, Copy, PartialEq, Eq, Hash, Debug)]",
              "pub enum FaultRule {"]
    for fault in rules.faults:
        lines += [f"    /// `{fault.head}`", f"    {fault.rule},"]
    lines += ["}", "", "/// The fault lines.", "pub const FAULTS: &[FaultForm] = &["]
    lines += [f'    FaultForm {{ code: "{code}", rule: FaultRule::{rule}, words: &[{_words(words)}] }},'
              for rule, (code, words) in _forms(rules).items()]
    lines += ["];", ""]
    for refusal in rules.refusals["edit"]:
        name = "_".join(re.findall("[A-Z][a-z]*", refusal.rule)).upper()
        lines += [f"/// The refusal of an edit: {rules.words['edit'][refusal.rule]['meaning']}.",
                  f"pub const {name}: u32 = {refusal.number};"]
    lines += ["", *_texts("EDITS", _sentences(rules, "edit"), "A sentence for each refusal of an edit."),
              *_texts("OBJECTS", _sentences(rules, "object"),
                      "What docs/objects.md says of each number, for where `readobj` cannot be had."),
              *_texts("SCRIPTS", _sentences(rules, "script"),
                      "What docs/scripts.md says of each number."),
              "/// The words that scripts of the profile keep for themselves.", "#[rustfmt::skip]",
              "pub const RESERVED: &[&str] = &["]
    words = textwrap.wrap(" ".join(f'"{row.word}",' for row in rules.reserved), LONGEST - 4)
    return "\n".join([*lines, *(f"    {line}" for line in words), "];", ""])


def limits(rules: Rules) -> str:
    """The front end's module of limits."""
    lines = ["//! The limits of the profile of `ldi` (docs/limits.md). `tools/rules` writes this file: do not edit it."]
    lines.append("")
    for limit in rules.limits:
        of = "u64" if limit.name == "MAX_IMAGE" else "usize"
        lines += [f"/// {limit.about}", f"pub const {limit.name}: {of} = {limit.value:_};"]
    return "\n".join([*lines, ""])


# The documents

def _table(head: list[str], rows: list[list[str]]) -> list[str]:
    lines = ["| " + " | ".join(row) + " |" for row in [head, *rows]]
    return [lines[0], "|" + "---|" * len(head), *lines[1:]]


def _number(value: int) -> str:
    """A number beside a power of two."""
    if value < 0:
        return f"-{_number(-value)}"
    for add in (0, 1):
        if value + add > 1 and (value + add) & (value + add - 1) == 0:
            return f"2^{(value + add).bit_length() - 1}" + " - 1" * add
    return str(value)


def _relocations(rules: Rules) -> list[str]:
    rows = [[row.name, str(row.number), row.calculation or "none", str(row.width),
             f"{_number(row.range[0])} to {_number(row.range[1])}" if row.range
             else "any" if row.calculation else "none"]
            for row in rules.relocations]
    return _table(["psABI name", "Number", "v", "Bytes", "Range of v"], rows)


def _phases(rules: Rules) -> list[str]:
    codes = {fault.rule: fault.code for fault in rules.faults}
    rows = []
    for phase in rules.words["phase"]:
        found = list(dict.fromkeys(codes[rule] for rule in phase["faults"]))
        between = ", " if len(found) == 2 else " to "
        rows.append([phase["name"], between.join([found[0], found[-1]][:len(found)]), phase["order"]])
    return _table(["Phase", "Faults", "Order of the lines"], rows)


def _edit_refusals(rules: Rules) -> list[str]:
    words = rules.words["edit"]
    rows = [[str(row.number), *(words[row.rule][part] for part in ("meaning", "edits", "inner"))]
            for row in rules.refusals["edit"]]
    return _table(["N", "Meaning", "Of which edits", "M"], rows)


def _script_refusals(rules: Rules) -> list[str]:
    words = rules.words["script"]
    rows = [[str(row.number), f"`{row.rule}`", words[row.rule]["condition"]] for row in rules.refusals["script"]]
    return _table(["No.", "Name", "Condition"], rows)


def _reserved(rules: Rules) -> list[str]:
    listed = textwrap.wrap("  ".join(row.word for row in rules.reserved), 96)
    unused = [f"`{row.word}`" for row in rules.reserved if not row.has_rule]
    said = f"{', '.join(unused[:-1])} and {unused[-1]} are reserved, but no rule of the grammar uses them."
    return ["", *(f"    {line}" for line in listed), "", *textwrap.wrap(said, LONGEST), ""]


def _proof_files(_rules: Rules) -> list[str]:
    """How many files of proofs and hints there are, rounded, so that they change seldom."""
    proofs = list((ROOT / "crates").glob("*/proofs/**/*.antt"))
    answers, invariants = (sum(path.name == name for path in proofs) for name in ("Answers.antt", "Invariants.antt"))
    hints = sum(path.read_text(encoding="utf-8").count("#[tactic(auto, ")
                for path in (ROOT / "crates").glob("*/src/**/*.rt"))
    counts = [_rounded(count) for count in (answers, invariants, len(proofs) - answers - invariants, hints)]
    said = "There are some {} files of answers, {} of invariants and {} of lemmas, and {} hints.".format(*counts)
    return ["", *textwrap.wrap(said, LONGEST), ""]


def _rounded(count: int) -> int:
    return (count + 25) // 50 * 50


TABLES: dict[str, dict[str, Callable[[Rules], list[str]]]] = {
    "docs/layout.md": {"relocations": _relocations},
    "docs/proofs.md": {"proof files": _proof_files},
    "docs/manual.md": {"phases": _phases, "edit refusals": _edit_refusals},
    "docs/scripts.md": {"reserved words": _reserved, "script refusals": _script_refusals},
}


def with_tables(path: str, text: str, rules: Rules) -> str:
    """A document with its tables as the rules have them."""
    for name, make in TABLES[path].items():
        begin, end = f"<!-- rules: {name} -->\n", "<!-- /rules -->"
        before, found, rest = text.partition(begin)
        if not found or end not in rest:
            raise rule_rows.Unread(f"{path} has no place for the table: {begin.strip()} and {end}")
        text = before + begin + "".join(f"{line}\n" for line in make(rules)) + end + rest.partition(end)[2]
    return text


def heads(rules: Rules) -> Iterator[tuple[str, list[str], list[str]]]:
    """What begins the entries of lists that are written by hand, as it must be, and as it is."""
    manual = (ROOT / "docs/manual.md").read_text(encoding="utf-8")
    yield ("docs/manual.md, 'Fault lines'", [fault.head for fault in rules.faults],
           re.findall(r"^(?:- |  )`(F\d+ [^`]*)`(?=:)", manual.partition("\n## Fault lines")[2], re.M))
    objects = (ROOT / "docs/objects.md").read_text(encoding="utf-8")
    yield ("docs/objects.md, 'Refusals'", [f"{row.number} `{row.rule}`" for row in rules.refusals["object"]],
           re.findall(r"^- \*\*(\d+ `\w+`)\*\*", objects, re.M))


def files(rules: Rules) -> Iterator[tuple[str, str]]:
    """Each file that is written, and what must stand in it."""
    yield FRONT, front(rules)
    yield LIMITS, limits(rules)
    for path in TABLES:
        yield path, with_tables(path, (ROOT / path).read_text(encoding="utf-8"), rules)
