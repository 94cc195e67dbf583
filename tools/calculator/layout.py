"""Layout: the location counter, regions, output sections and load addresses, or the first fault.

From the GNU ld manual: Location Counter, Output Section Address and LMA, MEMORY; the corners are this profile's own.
Sums of addresses and sizes are whole numbers; an address, `.`, an end or a load end of 2^64 or more is a fault.
"""
from dataclasses import dataclass
from functools import cached_property

from . import elf, scripts, tree
from .elf import align_up
from .expressions import MODULUS, BadOperand, NotReady, power_of_two, value
from .gathering import Piece
from .names import Case


class Fault(Exception):
    """Layout stops at the first fault; this is its line."""


@dataclass(frozen=True)
class PlacedPiece:
    """A piece of a row and its address."""
    piece: Piece
    address: int


@dataclass(frozen=True)
class PlacedData:
    """The bytes of a data command and their address."""
    address: int
    content: bytes


@dataclass(frozen=True)
class Placed:
    """An output section with its numbers; `contents` are its pieces and data commands in order of address."""
    section: tree.OutputSection
    alignment: int
    start: int
    size: int
    load: int
    contents: list

    @property
    def end(self):
        return self.start + self.size

    @cached_property
    def pieces(self):
        return [content for content in self.contents if isinstance(content, PlacedPiece)]

    @cached_property
    def has_file_bytes(self):
        """It has a data command, or a piece of nonzero size of a type other than NOBITS."""
        return any(isinstance(content, PlacedData) or content.piece.gives_file_bytes for content in self.contents)

    @property
    def load_size(self):
        return self.size if self.has_file_bytes else 0

    @property
    def load_end(self):
        return self.load + self.load_size

    @cached_property
    def flags(self):
        """WRITE and EXECINSTR of the pieces of nonzero size; a section of nonzero size without file bytes has WRITE."""
        found = elf.SHF_WRITE if self.size > 0 and not self.has_file_bytes else 0
        for placed in self.pieces:
            if placed.piece.size > 0:
                found |= placed.piece.flags & (elf.SHF_WRITE | elf.SHF_EXECINSTR)
        return found


@dataclass(frozen=True)
class Placement:
    """Where all is: output sections in script order, script symbols and regions (ORIGIN, LENGTH) by name."""
    sections: list
    symbols: dict
    regions: dict

    def section(self, name):
        """The output section of that name, or None."""
        return next((placed for placed in self.sections if placed.section.name == name), None)


class Names:
    """What expressions of the layout may name: symbols and sections that come earlier and are complete."""

    def __init__(self, layout):
        self.layout = layout

    def symbol(self, name):
        """A script symbol; a name that only an object defines is not ready either."""
        if name not in self.layout.symbols:
            raise NotReady(name)
        return self.layout.symbols[name]

    def function(self, function, name):
        """A function of a region, or of an output section."""
        if function in tree.OF_REGION:
            return self.layout.regions[name][tree.OF_REGION.index(function)]
        placed = next((placed for placed in self.layout.sections if placed.section.name == name), None)
        if placed is None:
            raise NotReady(name)
        return getattr(placed, tree.OF_SECTION[function])


class Layout:
    """One pass over the statements, in script order."""

    def __init__(self, project, decisions, rows):
        self.decisions, self.rows = decisions, rows
        self.dot, self.symbols, self.regions, self.free, self.sections = 0, {}, {}, {}, []
        self.input_number = 0
        for statement in project.script:
            self.top(statement)

    @property
    def placement(self):
        return Placement(self.sections, self.symbols, self.regions)

    def value(self, statement, expression):
        """A value, or F4 and F5 with the statement's line."""
        try:
            return value(expression, Names(self), self.dot)
        except NotReady as fault:
            raise Fault(f"F4 {statement.line} {fault.name}")
        except BadOperand:
            raise Fault(f"F5 {statement.line}")

    def in_space(self, statement, number):
        """F8 for a number past the address space."""
        if number >= MODULUS:
            raise Fault(f"F8 {statement.line}")
        return number

    # Statements outside output sections.

    def top(self, statement):
        """A statement at the top of the script. ENTRY and ASSERT place nothing."""
        if isinstance(statement, tree.Memory):
            for region in statement.regions:
                self.region(region)
        elif isinstance(statement, tree.Sections):
            self.dot = 0
            for item in statement.items:
                self.item(item)
        else:
            self.symbol(statement)

    def region(self, region):
        """ORIGIN before LENGTH; its next free address is first its ORIGIN."""
        origin = self.value(region, region.origin)
        self.regions[region.name] = origin, self.value(region, region.length)
        self.free[region.name] = origin

    def symbol(self, statement):
        """An assignment; or a PROVIDE whose name is decided Provided: any other defines nothing and isn't evaluated."""
        if isinstance(statement, tree.Assign) or (
                isinstance(statement, tree.Provide) and self.decisions.of(statement.name).case is Case.PROVIDED):
            self.symbols[statement.name] = self.value(statement, statement.value)

    def item(self, statement):
        """A statement in SECTIONS. `. = e` sets the location counter, also back; `. += e` is `. = . + e`, and wraps."""
        if isinstance(statement, tree.SetDot):
            self.dot = self.value(statement, statement.value)
        elif isinstance(statement, tree.AddDot):
            self.dot = (self.dot + self.value(statement, statement.value)) % MODULUS
        elif isinstance(statement, tree.OutputSection):
            self.section(statement)
        elif isinstance(statement, tree.Discard):
            self.input_number += sum(isinstance(inside, tree.Input) for inside in statement.body)
        else:
            self.symbol(statement)

    # Output sections.

    def section(self, section):
        """Head expressions, start, load address, body, regions, load end; then `.` and the regions move on."""
        row = self.rows[len(self.sections)]
        address, load, least = self.head(section)
        alignment = max([least] + [entry.piece.alignment for entry in row])
        start = self.in_space(section, self.start(section, address, alignment))
        load = self.in_space(section, self.load(section, address, load, start, alignment))
        contents = self.body(section, start, row)
        placed = Placed(section, alignment, start, self.dot - start, load, contents)
        self.check_regions(placed)
        self.in_space(section, placed.load_end)
        self.sections.append(placed)
        self.move_regions(placed)

    def head(self, section):
        """The address, AT(e) and ALIGN(e) of the head, in text order; `.` is still the value before the section."""
        address = None if section.address is None else self.value(section, section.address)
        load = None if section.load is None else self.value(section, section.load)
        least = 1 if section.alignment is None else self.value(section, section.alignment)
        try:
            return address, load, power_of_two(least)
        except BadOperand:
            raise Fault(f"F5 {section.line}")

    def start(self, section, address, alignment):
        """The address as given; else the next free address of the region, else `.`, aligned."""
        if address is not None:
            return address
        return align_up(self.dot if section.region is None else self.free[section.region], alignment)

    def load(self, section, address, load, start, alignment):
        """AT(e); the next free address of AT>r, aligned; the start where an address is given; else as the last earlier
        output section of the same region lies to its load address (sections without a region count as one region)."""
        if load is not None:
            return load
        if section.load_region is not None:
            return align_up(self.free[section.load_region], alignment)
        earlier = [placed for placed in self.sections if placed.section.region == section.region]
        if address is not None or not earlier:
            return start
        return (start - (earlier[-1].start - earlier[-1].load)) % MODULUS

    def body(self, section, start, row):
        """The contents, statement by statement from the start; afterwards `.` is the section's end."""
        self.dot = start
        contents = []
        for statement in section.body:
            if isinstance(statement, tree.Input):
                contents += self.input(statement, row)
            elif isinstance(statement, tree.Data):
                contents.append(self.data(statement))
            elif isinstance(statement, (tree.SetDot, tree.AddDot)):
                self.move(statement, start)
            else:
                self.symbol(statement)
        return contents

    def input(self, statement, row):
        """Each piece starts at the least multiple of its alignment not below `.`."""
        number = self.input_number
        self.input_number += 1
        found = []
        for entry in row:
            if entry.statement == number:
                address = self.in_space(statement, align_up(self.dot, entry.piece.alignment))
                self.dot = self.in_space(statement, address + entry.piece.size)
                found.append(PlacedPiece(entry.piece, address))
        return found

    def data(self, statement):
        """The value, little-endian and cut to the width; it isn't aligned."""
        found = PlacedData(self.dot, elf.spell(self.value(statement, statement.value), statement.width))
        self.dot = self.in_space(statement, self.dot + statement.width)
        return found

    def move(self, statement, start):
        """An assignment to `.` in its form: adding, setting, or counting from the section's start; never back."""
        form, amount = (scripts.ADD, statement.value)
        if isinstance(statement, tree.SetDot):
            form, amount = scripts.form(statement.value)
        base = {scripts.ADD: self.dot, scripts.SET: 0, scripts.OFFSET: start}[form]
        moved = self.in_space(statement, base + self.value(statement, amount))
        if moved < self.dot:
            raise Fault(f"F6 {statement.line}")
        self.dot = moved

    def check_regions(self, placed):
        """F7: it isn't inside its region; or its load size isn't 0 and its load range not inside the AT region."""
        section = placed.section
        for region, size, first in ((section.region, placed.size, placed.start),
                                    (section.load_region, placed.load_size, placed.load)):
            if region is not None and size > 0:
                origin, length = self.regions[region]
                if not (origin <= first and first + size <= origin + length):
                    raise Fault(f"F7 {section.name} {region}")

    def move_regions(self, placed):
        """The next free address of the region is the section's end; then that of the AT region the load end."""
        if placed.section.region is not None:
            self.free[placed.section.region] = placed.end
        if placed.section.load_region is not None:
            self.free[placed.section.load_region] = placed.load_end


@dataclass(frozen=True)
class Range:
    """The addresses or load addresses of an output section, from `first` up to but without `end`."""
    name: str
    first: int
    end: int

    def meets(self, other):
        """Whether two ranges of nonzero size share a number."""
        return self.first < other.end and other.first < self.end


def first_met(ranges):
    """(name, name of the first earlier one that it meets) of each range that meets an earlier one."""
    for at, one in enumerate(ranges):
        met = next((other for other in ranges[:at] if one.meets(other)), None)
        if met is not None:
            yield one.name, met.name


def overlaps(placement):
    """F9 for each section whose addresses meet an earlier one's, then F10 likewise for load addresses."""
    addresses = [Range(placed.section.name, placed.start, placed.end)
                 for placed in placement.sections if placed.size > 0]
    loads = [Range(placed.section.name, placed.load, placed.load_end)
             for placed in placement.sections if placed.load_size > 0]
    return ([f"F9 {name} {earlier}" for name, earlier in first_met(addresses)]
            + [f"F10 {name} {earlier}" for name, earlier in first_met(loads)])


def place(project, decisions, rows):
    """The placement and no lines, or None and the fault lines of the layout but for the image's length."""
    try:
        placement = Layout(project, decisions, rows).placement
    except Fault as fault:
        return None, [str(fault)]
    return placement, overlaps(placement)
