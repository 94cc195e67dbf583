"""Targets: the value of a name and of a relocation's symbol in a placement, or why there is none.

From the gABI (symbol values) and the x86-64 psABI (relocation).
"""
from dataclasses import dataclass

from . import elf, gathering, names, objects, relocation
from .names import Case


class Undefined(Exception):
    """A name that nothing defines."""


class NotInOutput(Exception):
    """The section of a symbol has no piece in the output."""


@dataclass(frozen=True)
class Home:
    """Where a piece of the output lies: its address, and the number of its output section from 1."""
    address: int
    section: int


class Output:
    """The pieces of a placement by their keys, and the values that names have there."""

    def __init__(self, project, decisions, placement):
        self.project, self.decisions, self.placement = project, decisions, placement
        self.homes = {placed.piece.key: Home(placed.address, at)
                      for at, section in enumerate(placement.sections, 1) for placed in section.pieces}

    def home(self, key):
        """Where the piece of that key lies, or NotInOutput."""
        if key not in self.homes:
            raise NotInOutput()
        return self.homes[key]

    def symbol_value(self, key, symbol):
        """The address of the symbol's piece plus st_value, modulo 2^64; st_value for an absolute symbol."""
        if symbol.section == elf.SHN_ABS:
            return symbol.value
        return (self.home(key).address + symbol.value) % 2 ** 64

    def name_value(self, name):
        """The value of a name by its decision."""
        decision = self.decisions.of(name)
        if decision.case in (Case.STRONG, Case.WEAK):
            return self.symbol_value(gathering.piece_of(decision), decision.entry.symbol)
        if decision.case is Case.COMMON:
            return self.home(gathering.piece_of(decision)).address
        if decision.case in (Case.SCRIPT, Case.PROVIDED):
            return self.placement.symbols[name]
        raise Undefined()

    def site_value(self, at, symbol):
        """S of a relocation in object `at`: 0 for symbol 0; a local entry itself; another by its name.

        An undefined name has the value 0 where the relocation's own entry is weak.
        """
        if symbol.number == 0:
            return 0
        if symbol.is_local:
            return self.symbol_value((at, False, symbol.section), symbol)
        if self.decisions.of(symbol.name).case is Case.UNDEFINED and symbol.binding == elf.STB_WEAK:
            return 0
        return self.name_value(symbol.name)

    @property
    def entry(self):
        """e_entry: the value of the entry symbol, 0 without one."""
        name = names.entry_name(self.project)
        return 0 if name is None else self.name_value(name)


@dataclass(frozen=True)
class Site:
    """A relocation, not NONE, of a piece in the output: the position of its object, its section, and its address."""
    object: int
    section: objects.Section
    relocation: objects.Relocation
    place: int


def sites(output):
    """All sites in object order, then section, then entry order."""
    found = []
    for at, member in enumerate(output.project.members):
        for section in member.object.sections:
            if (at, False, section.number) in output.homes:
                address = output.homes[at, False, section.number].address
                found += [Site(at, section, entry, (address + entry.offset) % 2 ** 64)
                          for entry in member.object.relocations.get(section.number, [])
                          if entry.kind != relocation.R_NONE]
    return found


@dataclass(frozen=True)
class Fields:
    """The bytes of each field by its place, and the lines of the relocation's faults."""
    content: dict
    faults: list


def fields(output):
    """Evaluates all sites; F13 for the entry symbol comes before all others."""
    content, lines = {}, entry_fault(output)
    for site in sites(output):
        member = output.project.members[site.object]
        symbol = member.object.symbols[site.relocation.symbol]
        where = f"{member.name} {site.section.name} {site.relocation.offset:016x}"
        try:
            s = output.site_value(site.object, symbol)
        except Undefined:
            lines.append(f"F12 {where} {symbol.name}")
            continue
        except NotInOutput:
            lines.append(f"F13 {where} {symbol.number}")
            continue
        found = relocation.field(site.relocation.kind, s, site.relocation.addend, site.place)
        if isinstance(found, relocation.Overflow):
            lines.append(f"F14 {where} {site.relocation.kind} {found.value:016x}")
        else:
            content[site.place] = found.content
    return Fields(content, lines)


def entry_fault(output):
    """F13 for an entry symbol whose section is not in the output."""
    try:
        output.entry
    except NotInOutput:
        return ["F13 entry"]
    return []
