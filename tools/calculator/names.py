"""Names: which declaration of a name gives it its meaning (gABI, symbol binding; GNU ld manual, PROVIDE).

The declarations of a name are all non-local symbol entries with that name, in object order, then symbol order.
"""
from dataclasses import dataclass
from enum import Enum
from functools import cached_property

from . import elf, tree
from .objects import Symbol


class Case(Enum):
    STRONG, SCRIPT, COMMON, WEAK, PROVIDED, UNDEFINED, DUPLICATE = range(7)


@dataclass(frozen=True)
class Declaration:
    """A symbol entry and the position of its object, from 0."""
    object: int
    symbol: Symbol


@dataclass(frozen=True)
class Decision:
    """The case; the deciding entry of Strong, Weak and Common; a common block's size and alignment."""
    case: Case
    entry: Declaration = None
    size: int = 0
    alignment: int = 0


def declarations(project):
    """The non-local symbol entries of all objects in order, filtered by each name: the list of each name."""
    found = {}
    for at, member in enumerate(project.members):
        for symbol in member.object.symbols:
            if not symbol.is_local:
                found.setdefault(symbol.name, []).append(Declaration(at, symbol))
    return found


def is_strong(declaration):
    """A GLOBAL definition that isn't common."""
    symbol = declaration.symbol
    return symbol.binding == elf.STB_GLOBAL and not symbol.is_undefined and not symbol.is_common


def is_common(declaration):
    return declaration.symbol.is_common


def is_weak(declaration):
    """A WEAK definition."""
    return declaration.symbol.binding == elf.STB_WEAK and not declaration.symbol.is_undefined


def is_undefined(declaration):
    return declaration.symbol.is_undefined


def assigned(project):
    """The names that the script assigns."""
    return {statement.name for statement in tree.of_kind(project.script, tree.Assign)}


def provided(project):
    """The names that a PROVIDE of the script gives."""
    return {statement.name for statement in tree.of_kind(project.script, tree.Provide)}


def decision(entries, plain, offered):
    """The first of seven cases that holds of the declarations of a name; `plain` where the script assigns it, `offered`
    where it provides it."""
    strong = list(filter(is_strong, entries))
    commons = list(filter(is_common, entries))
    weak = list(filter(is_weak, entries))
    if len(strong) + plain >= 2:
        return Decision(Case.DUPLICATE)
    if strong:
        return Decision(Case.STRONG, strong[0])
    if plain:
        return Decision(Case.SCRIPT)
    if commons:
        return Decision(Case.COMMON, commons[0], max(entry.symbol.size for entry in commons),
                        max(entry.symbol.value for entry in commons))
    if weak:
        return Decision(Case.WEAK, weak[0])
    if offered and any(map(is_undefined, entries)):
        return Decision(Case.PROVIDED)
    return Decision(Case.UNDEFINED)


def entry_name(project):
    """The entry symbol: the option, else ENTRY, else None."""
    if project.options.entry is not None:
        return project.options.entry
    return next((statement.name for statement in tree.of_kind(project.script, tree.Entry)), None)


class Decisions:
    """The decision of each name that an object declares or the script assigns or provides; Undefined for any other."""

    def __init__(self, project):
        self.declarations = declarations(project)
        self.assigned, self.provided = assigned(project), provided(project)
        self.names = sorted(set(self.declarations) | self.assigned | self.provided)
        self.decided = {name: decision(self.declarations.get(name, []), name in self.assigned, name in self.provided)
                        for name in self.names}

    def of(self, name):
        return self.decided.get(name, Decision(Case.UNDEFINED))

    @cached_property
    def commons(self):
        """The decisions of the common blocks that each object owns, by symbol number."""
        found = {}
        for decision in self.decided.values():
            if decision.case is Case.COMMON:
                found.setdefault(decision.entry.object, []).append(decision)
        return {at: sorted(owned, key=lambda block: block.entry.symbol.number) for at, owned in found.items()}


def faults(project, decisions):
    """The first phase: F1 for each strong definition too many, in object and symbol order; F2 for the entry symbol."""
    lines = []
    for at, member in enumerate(project.members):
        for symbol in member.object.symbols:
            if not symbol.is_local:
                lines += duplicate_line(project, decisions, Declaration(at, symbol))
    entry = entry_name(project)
    if entry is not None and decisions.of(entry).case is Case.UNDEFINED:
        lines.append(f"F2 {entry}")
    return lines


def duplicate_line(project, decisions, declaration):
    """F1 NAME OBJECT FIRST: FIRST is `script` where it assigns the name, else the object of the first strong one."""
    name = declaration.symbol.name
    if decisions.of(name).case is not Case.DUPLICATE or not is_strong(declaration):
        return []
    first = next(filter(is_strong, decisions.declarations[name]))
    by_script = name in decisions.assigned
    if not by_script and declaration == first:
        return []
    return [f"F1 {name} {project.members[declaration.object].name} "
            f"{'script' if by_script else project.members[first.object].name}"]
