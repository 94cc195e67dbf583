"""Random lists of edits between good links, by which input sections, symbols and names move.

An object is kept as its parts (`Parts`), a script as a plan (`Plan`), both as values. Each edit changes one of them;
now and then one makes a fault or is refused, and what made a fault is mostly taken back by the next edits. Names that
objects share are so chosen that most links are good: `c0` to `c2` are common blocks, `g0` to `g3` weak and at most once
strong, `p0` to `p5` PROVIDEd by the script; names of other objects are mostly referred to as weak.
"""
import dataclasses
import random
from dataclasses import dataclass

from . import answers, edits, elf, relocation, rows
from .build import CODE, DATA, READ_ONLY, Rel, Sec, Sym, build
from .link import link

COMMONS, CHOSEN = ["c0", "c1", "c2"], ["g0", "g1", "g2", "g3"]
PROVIDED = ["p0", "p1", "p2", "p3", "p4", "p5"]
START = "crt.o"
SIZES = [1, 2, 3, 4, 8, 12, 16, 24, 40, 64]
GROWTHS = [1, 1, 2, 3, 4, 7, 8, 15, 16, 17, 33, 64] * 2 + [4100]
# What an output section takes besides its own.
ALSO = ["", "*(.rodata.*)", "*(.data.[a-z])", "*(.bss.* .data.*_[12])", "*(.text.[a-b])", "*(.data.x .data.y)",
        "KEEP(*(.data.[a-d]))", "KEEP(*(.text.*_1 .data.*_2))", "o2.o(.rodata*)",
        "*(EXCLUDE_FILE(o3.o o4.o) .rodata.[a-z])", "*(SORT_BY_ALIGNMENT(.*_[13]))"]
# of no width; 64, PC32, PLT32, 32, PC64
TYPES = [0, 1, 1, 2, 2, 4, 4, 10, 24]


@dataclass(frozen=True)
class Ref:
    """A relocation; its symbol by name, 0 for none. A name that the object does not define is weak or not."""
    of: int
    offset: int
    kind: int
    name: object
    addend: int
    is_weak: bool

    @property
    def end(self):
        return self.offset + relocation.WIDTHS[self.kind]


@dataclass(frozen=True)
class Parts:
    """The sections of an object, the symbols that it defines, and its relocations."""
    sections: tuple
    symbols: tuple
    refs: tuple = ()

    @property
    def data(self):
        """Its bytes."""
        own = {symbol.name for symbol in self.symbols}
        needed = {}
        for ref in self.refs:
            if ref.name != 0 and ref.name not in own:
                needed[ref.name] = needed.get(ref.name, True) and ref.is_weak
        symbols = list(self.symbols) + [Sym(name, binding=elf.STB_WEAK if is_weak else elf.STB_GLOBAL)
                                        for name, is_weak in needed.items()]
        return build(list(self.sections), symbols, [Rel(ref.of, ref.offset, ref.kind, ref.name, ref.addend)
                                                    for ref in self.refs])

    def with_section(self, number, **changes):
        """With another section of that number, and without the relocations that have no room in it."""
        sections = list(self.sections)
        sections[number - 1] = made = dataclasses.replace(sections[number - 1], **changes)
        room = len(made.content) if made.kind != elf.SHT_NOBITS else 0
        refs = tuple(ref for ref in self.refs if ref.of != number or ref.end <= room and room > 0)
        return dataclasses.replace(self, sections=tuple(sections), refs=refs)

    def without_section(self, number):
        """Without the section of that number, its symbols and its relocations. Relocations with its symbols ask for
        them elsewhere."""
        after = lambda one, at: one if at < number else one - 1  # noqa: E731
        symbols = tuple(dataclasses.replace(symbol, section=after(symbol.section, symbol.section))
                        for symbol in self.symbols if symbol.section != number)
        local = {symbol.name for symbol in self.symbols if symbol.section == number
                 and symbol.binding == elf.STB_LOCAL}
        refs = tuple(dataclasses.replace(ref, of=after(ref.of, ref.of), is_weak=True)
                     for ref in self.refs if ref.of != number and ref.name not in local)
        return Parts(self.sections[:number - 1] + self.sections[number:], symbols, refs)


@dataclass(frozen=True)
class Plan:
    """What a script says."""
    base: int = 0x401000
    regions: bool = False
    order: tuple = (".text", ".rodata", ".data", ".bss")
    sorts: tuple = ("", "", "", "")
    fills: tuple = ("", "", "", "")
    alignments: tuple = (1, 1, 1, 1)
    gap: tuple = ("", "", "", "")
    also: tuple = ("", "", "", "")
    between: tuple = ("", "", "", "")
    load: int = 0
    provided: tuple = (".", "ADDR(.data)", "SIZEOF(.text)", "7", "ADDR(.bss) + SIZEOF(.bss)", "LOADADDR(.data)")
    data: tuple = ()
    discarded: str = ""
    comment: str = ""

    OUTPUTS = (".text", ".rodata", ".data", ".bss")

    @property
    def text(self):
        """The script."""
        items = [self.discarded] + [self.output(name) for name in self.order]
        given = " ".join(f"PROVIDE({name} = {value});" for name, value in zip(PROVIDED, self.provided))
        memory = (f"MEMORY {{ rom : ORIGIN = {self.base:#x}, LENGTH = 64K ram : ORIGIN = 0x800000, LENGTH = 64K }}\n"
                  if self.regions else "")
        return (f"{memory}ENTRY(start) {self.comment}\nSECTIONS {{ . = {self.base:#x};\n" + "\n".join(items)
                + f"\n.rest : {{ *(*) }}{' >rom' * self.regions}\nend = .; {given} }}\n")

    def output(self, name):
        """The output section of a name."""
        at = self.OUTPUTS.index(name)
        load = f" AT(. + {self.load:#x})" if name == ".data" and self.load and not self.regions else ""
        patterns = f"{name}.*"
        chosen = f"*({self.sorts[at]}({patterns}))" if self.sorts[at] else f"*({patterns})"
        first = "KEEP(*(.text.start)) " if name == ".text" else ""
        last = " *(COMMON)" if name == ".bss" else ""
        data = " ".join(self.data) if name == ".rodata" else ""
        region = {".text": " >rom", ".rodata": " >rom", ".data": " >ram AT>rom", ".bss": " >ram"}[name] * self.regions
        return (f"{self.between[at]} {name} :{load} ALIGN({self.alignments[at]}) {{ {first}{self.also[at]} {chosen} "
                f"{self.gap[at]} {data} *({name}){last} }}{region}{self.fills[at]}")


@dataclass(frozen=True)
class State:
    """The objects in their order, each with its parts, and the script."""
    order: tuple
    parts: dict
    plan: Plan

    def put(self, name, parts):
        """With other parts of an object."""
        return dataclasses.replace(self, parts={**self.parts, name: parts})

    def planned(self, **changes):
        """With another script."""
        return dataclasses.replace(self, plan=dataclasses.replace(self.plan, **changes))

    def placed(self, order):
        """With the objects in another order."""
        return dataclasses.replace(self, order=tuple(order), parts={name: self.parts[name] for name in order})

    def added(self, name, at, parts):
        """With one object more."""
        return dataclasses.replace(self.put(name, parts), order=self.order[:at] + (name,) + self.order[at:])

    def without(self, name):
        """With one object less."""
        return self.placed([other for other in self.order if other != name])


def moved_name(old, new):
    """The object whose move makes one order of the other."""
    without = lambda order, name: [other for other in order if other != name]  # noqa: E731
    return next(name for name in new if without(old, name) == without(new, name)
                and old.index(name) != new.index(name))


def command(old, new):
    """The edit by which one state becomes another that differs in one thing; if in none, the first object comes once
    more."""
    if old.plan != new.plan:
        return rows.script(new.plan.text)
    for name in new.order:
        if name not in old.order:
            return rows.add(name, new.order.index(name), new.parts[name].data)
        if new.parts[name] != old.parts[name]:
            return rows.replace(name, new.parts[name].data)
    for name in old.order:
        if name not in new.order:
            return rows.remove(name)
    if old.order != new.order:
        name = moved_name(old.order, new.order)
        return rows.move(name, new.order.index(name))
    return rows.replace(new.order[0], new.parts[new.order[0]].data)


class Moving:
    """A list of edits from a seed: `options`, and `data`, the commands. In one of eight lists objects have dozens of
    sections."""

    def __init__(self, seed):
        self.random = random.Random(f"moving {seed}")
        self.sections = (20, 60) if seed % 8 == 0 else (2, 5)
        self.options = edits.Options(self.chance(0.4), None, "discard" if self.chance(0.2) else "error")
        self.project = edits.Project(options=self.options)
        self.linked = link(self.project)
        self.data, self.serial, self.objects = b"", 0, 0
        self.gone, self.back, self.fix = {}, [], None
        self.patience, self.haste = (5, 0.3) if seed % 4 == 1 else (2, 0.7)
        self.state = self.last = State((), {}, self.first_plan())

    def chance(self, probability):
        return self.random.random() < probability

    def one(self, *choices):
        return self.random.choice(choices)

    # Objects.

    def parts(self, is_start=False):
        """The parts of a new object."""
        self.serial += 1
        count = self.random.randint(*self.sections)
        sections = [self.section(number) for number in range(count)]
        symbols = [self.own(number, section) for number, section in enumerate(sections, 1) if self.chance(0.8)]
        symbols += [Sym("L", 1, self.random.randint(0, 8), 0, elf.STB_LOCAL)]
        if is_start:
            sections.append(Sec(".text.start", bytes(120), CODE, alignment=16))
            symbols.append(Sym("start", len(sections), 0, 48, elf.STB_GLOBAL, elf.STT_FUNC))
        symbols += [Sym(name, 1, self.one(0, 4), 4, elf.STB_WEAK) for name in CHOSEN if self.chance(0.3)]
        parts = Parts(tuple(sections), tuple(symbols))
        for _ in range(self.random.randint(1, 6) * (1 + self.options.gc)):
            parts = self.with_ref(parts)
        for name in self.random.sample(COMMONS, self.one(0, 0, 1, 2)):
            parts = self.with_common(parts, name)
        return parts

    def section(self, number):
        """A section of any of the four kinds, now and then one that no pattern but the last takes."""
        kind = self.one(".text", ".text", ".rodata", ".data", ".data", ".bss")
        name = self.one(kind, f"{kind}.{self.one(*'abcdxyz')}", f"{kind}.{self.serial}_{number}")
        name = self.one(".odd", ".zz") if self.chance(0.03) else name
        flags = {".text": CODE, ".rodata": READ_ONLY}.get(kind, DATA)
        alignment, size = self.one(0, 1, 1, 2, 4, 8, 16, 32, 64), self.one(*SIZES)
        if kind == ".bss":
            return Sec(name, b"", flags, elf.SHT_NOBITS, alignment, size)
        return Sec(name, self.random.randbytes(size), flags, elf.SHT_PROGBITS, alignment)

    def own(self, number, section):
        """A global symbol of a section."""
        size = max(len(section.content), section.size)
        return Sym(f"s{self.serial}_{number}", number, self.one(0, 0, 0, size // 2, size), size, elf.STB_GLOBAL,
                   self.one(elf.STT_FUNC, elf.STT_OBJECT, elf.STT_NOTYPE))

    def known_names(self):
        """The names that an object of the project defines."""
        return [symbol.name for parts in self.state.parts.values() for symbol in parts.symbols
                if symbol.binding != elf.STB_LOCAL]

    def ref(self, parts, number, offset):
        """A relocation at a place."""
        own = [symbol.name for symbol in parts.symbols]
        others = self.known_names()
        way = self.random.random()
        name = (self.one(*PROVIDED, "end") if way < 0.2 else self.one(*CHOSEN) if way < 0.3 else
                self.one(*others) if way < 0.75 + 0.15 * self.options.gc and others else self.one(*own) if own else 0)
        is_strong = name in PROVIDED or name == "end" or name in others and self.chance(0.3)
        return Ref(number, offset, self.one(*TYPES), name, self.one(0, 0, -4, 1, 8), not is_strong)

    def with_ref(self, parts):
        """With one relocation more, where a place is free."""
        for _ in range(6):
            number = self.random.randint(1, len(parts.sections)) if parts.sections else 0
            if self.options.gc and self.chance(0.5):
                number = len(parts.sections)
            room = len(parts.sections[number - 1].content) if number else 0
            if room < 4:
                continue
            ref = self.ref(parts, number, self.random.randint(0, room - 4))
            if ref.end <= room and all(ref.end <= other.offset or other.end <= ref.offset
                                       for other in parts.refs if other.of == number):
                return dataclasses.replace(parts, refs=parts.refs + (ref,))
        return parts

    def with_common(self, parts, name):
        """With a declaration of a common block, or with another one."""
        others = tuple(symbol for symbol in parts.symbols if symbol.name != name)
        block = Sym(name, elf.SHN_COMMON, self.one(1, 4, 8, 32), self.one(1, 4, 8, 17, 100), elf.STB_GLOBAL,
                    self.one(elf.STT_OBJECT, elf.STT_COMMON))
        return dataclasses.replace(parts, symbols=others + (block,))

    # Edits of an object: each gives other parts.

    def filled(self, parts):
        """The numbers of the sections that have bytes."""
        return [number for number, section in enumerate(parts.sections, 1) if section.content]

    def grow(self, parts):
        """A section that is longer."""
        number = self.random.randint(1, len(parts.sections))
        more, section = self.one(*GROWTHS), parts.sections[number - 1]
        if section.kind == elf.SHT_NOBITS:
            return parts.with_section(number, size=section.size + more)
        return parts.with_section(number, content=section.content + self.random.randbytes(more))

    def shrink(self, parts):
        """A section that is shorter."""
        number = self.random.randint(1, len(parts.sections))
        section = parts.sections[number - 1]
        if section.kind == elf.SHT_NOBITS:
            return parts.with_section(number, size=section.size // 2)
        return parts.with_section(number, content=section.content[:-self.one(1, 1, 2, 4, 8, 16)])

    def empty(self, parts):
        """A section without bytes."""
        number = self.random.randint(1, len(parts.sections))
        if parts.sections[number - 1].kind == elf.SHT_NOBITS:
            return parts.with_section(number, size=0)
        return parts.with_section(number, content=b"")

    def refill(self, parts):
        """The empty sections have bytes again."""
        for number, section in enumerate(parts.sections, 1):
            if section.kind == elf.SHT_NOBITS and section.size == 0:
                parts = parts.with_section(number, size=self.one(*SIZES))
            elif section.kind != elf.SHT_NOBITS and not section.content:
                parts = parts.with_section(number, content=self.random.randbytes(self.one(*SIZES)))
        return parts

    def other_bytes(self, parts):
        """Sections of the same sizes, with other bytes."""
        for number in self.filled(parts):
            content = parts.sections[number - 1].content
            parts = parts.with_section(number, content=self.random.randbytes(len(content)))
        return parts

    def realign(self, parts):
        """A section of another alignment."""
        number = self.random.randint(1, len(parts.sections))
        return parts.with_section(number, alignment=self.one(1, 2, 4, 8, 16, 32, 64, 128))

    def rename_section(self, parts):
        """A section of another name."""
        number = self.random.randint(1, len(parts.sections))
        if parts.sections[number - 1].name == ".text.start":
            return parts
        return parts.with_section(number, name=self.section(number).name)

    def with_bytes_or_none(self, parts):
        """A section with bytes has none any more, or the other way round."""
        number = self.random.randint(1, len(parts.sections))
        section = parts.sections[number - 1]
        if section.kind == elf.SHT_NOBITS:
            return parts.with_section(number, kind=elf.SHT_PROGBITS, content=self.random.randbytes(section.size))
        return parts.with_section(number, kind=elf.SHT_NOBITS, content=b"", size=len(section.content))

    def one_section_more(self, parts):
        """A section at the end, with a symbol."""
        self.serial += 1
        section = self.section(len(parts.sections))
        symbol = self.own(len(parts.sections) + 1, section)
        return dataclasses.replace(parts, sections=parts.sections + (section,), symbols=parts.symbols + (symbol,))

    def one_section_less(self, parts):
        """A section goes, with its symbols."""
        number = self.random.randint(1, len(parts.sections))
        if len(parts.sections) < 2 or parts.sections[number - 1].name == ".text.start":
            return parts
        return parts.without_section(number)

    def defined(self, parts):
        """Where the symbols of sections are, but for the entry symbol."""
        return [at for at, symbol in enumerate(parts.symbols)
                if 0 < symbol.section < elf.SHN_ABS and symbol.name != "start"]

    def with_symbol(self, parts, **changes):
        """With another symbol in the place of one, whose old name is asked for as weak from then on."""
        places = self.defined(parts)
        if not places:
            return parts
        symbols = list(parts.symbols)
        at = self.one(*places)
        symbols[at] = dataclasses.replace(symbols[at], **changes)
        return dataclasses.replace(parts, symbols=tuple(symbols))

    def move_symbol(self, parts):
        """A symbol moves inside its section."""
        return self.with_symbol(parts, value=self.random.randint(0, 40))

    def resize_symbol(self, parts):
        """A symbol of another size or type."""
        return self.with_symbol(parts, size=self.random.randint(0, 99), kind=self.one(0, 1, 2))

    def rename_symbol(self, parts):
        """A global name goes, and another one comes."""
        self.serial += 1
        return self.with_symbol(parts, name=self.one(f"a{self.serial}", f"s{self.serial}", f"z{self.serial}"),
                                binding=elf.STB_GLOBAL)

    def one_symbol_more(self, parts):
        """A global name comes: of a section or absolute."""
        self.serial += 1
        name = self.one(f"a{self.serial}", f"n{self.serial}", f"z{self.serial}")
        made = (Sym(name, elf.SHN_ABS, self.one(0, 7, 0x1234), 0, elf.STB_GLOBAL) if self.chance(0.2) else
                Sym(name, self.random.randint(1, len(parts.sections)), self.one(0, 1, 4), 4, elf.STB_GLOBAL, 2))
        return dataclasses.replace(parts, symbols=parts.symbols + (made,))

    def one_symbol_less(self, parts):
        """A global name goes; who refers to it here does so as weak."""
        places = self.defined(parts)
        if not places:
            return parts
        gone = self.one(*places)
        refs = tuple(dataclasses.replace(ref, is_weak=True) if ref.name == parts.symbols[gone].name else ref
                     for ref in parts.refs)
        if parts.symbols[gone].binding == elf.STB_LOCAL:
            refs = tuple(ref for ref in refs if ref.name != parts.symbols[gone].name)
        return dataclasses.replace(parts, symbols=parts.symbols[:gone] + parts.symbols[gone + 1:], refs=refs)

    def choose(self, parts):
        """A name that others may define too is defined here, weak or strong, or is not any more."""
        name = self.one(*CHOSEN)
        others = tuple(symbol for symbol in parts.symbols if symbol.name != name)
        has_strong = any(symbol.name == name and symbol.binding == elf.STB_GLOBAL
                         for other in self.state.parts.values() if other is not parts for symbol in other.symbols)
        if self.chance(0.3) or not parts.sections:
            return dataclasses.replace(parts, symbols=others)
        binding = elf.STB_WEAK if has_strong or self.chance(0.6) else elf.STB_GLOBAL
        made = Sym(name, self.random.randint(1, len(parts.sections)), self.one(0, 1, 4), 4, binding, self.one(0, 1, 2))
        return dataclasses.replace(parts, symbols=others + (made,))

    def common(self, parts):
        """A common block is declared, declared otherwise, or not any more."""
        name = self.one(*COMMONS)
        if self.chance(0.3):
            return dataclasses.replace(parts, symbols=tuple(one for one in parts.symbols if one.name != name))
        return self.with_common(parts, name)

    def one_ref_less(self, parts):
        """A relocation goes."""
        refs = list(parts.refs)
        if refs:
            del refs[self.random.randrange(len(refs))]
        return dataclasses.replace(parts, refs=tuple(refs))

    def retarget(self, parts):
        """A relocation of another symbol, type or addend at the same place."""
        if not parts.refs:
            return self.with_ref(parts)
        at = self.random.randrange(len(parts.refs))
        old, made = parts.refs[at], self.ref(parts, parts.refs[at].of, parts.refs[at].offset)
        if made.end > old.end:
            made = dataclasses.replace(made, kind=old.kind)
        return dataclasses.replace(parts, refs=parts.refs[:at] + (made,) + parts.refs[at + 1:])

    def provide(self, parts):
        """A PROVIDE comes into force by a reference; or all references to PROVIDEs go."""
        if self.chance(0.4):
            return dataclasses.replace(parts, refs=tuple(ref for ref in parts.refs if ref.name not in PROVIDED))
        made = self.with_ref(parts)
        if len(made.refs) == len(parts.refs):
            return parts
        last = dataclasses.replace(made.refs[-1], name=self.one(*PROVIDED), is_weak=self.chance(0.3))
        return dataclasses.replace(made, refs=made.refs[:-1] + (last,))

    def exchange(self, parts):
        """Two sections of the object in the other order."""
        if len(parts.sections) < 2:
            return parts
        at = self.random.randint(1, len(parts.sections) - 1)
        turned = {at: at + 1, at + 1: at}
        sections = list(parts.sections)
        sections[at - 1], sections[at] = sections[at], sections[at - 1]
        return Parts(tuple(sections),
                     tuple(dataclasses.replace(one, section=turned.get(one.section, one.section))
                           for one in parts.symbols),
                     tuple(dataclasses.replace(one, of=turned.get(one.of, one.of)) for one in parts.refs))

    def fault(self, parts):
        """A fault: a name that nothing defines, a field without room, or a name that is defined twice."""
        way = self.random.random()
        if way < 0.3:
            name = self.one(*self.known_names())
            if any(symbol.name == name for symbol in parts.symbols):
                return parts
            return dataclasses.replace(parts, symbols=parts.symbols + (Sym(name, 1, 0, 1),))
        made = self.with_ref(parts)
        if len(made.refs) == len(parts.refs):
            return parts
        last = (dataclasses.replace(made.refs[-1], name="nope", is_weak=False) if way < 0.7 else
                dataclasses.replace(made.refs[-1], kind=14))
        return dataclasses.replace(made, refs=made.refs[:-1] + (last,))

    OF_OBJECT = [grow] * 5 + [shrink] * 2 + [empty] * 3 + [refill] * 2 + [other_bytes] * 2 + [realign] * 2
    OF_OBJECT += [rename_section, with_bytes_or_none, one_section_more, one_section_more, one_section_less]
    OF_OBJECT += [move_symbol] * 3 + [resize_symbol, rename_symbol, one_symbol_more, one_symbol_less] + [choose] * 3
    OF_OBJECT += [common] * 4 + [with_ref] * 2 + [one_ref_less, retarget] + [provide] * 4 + [exchange, fault]

    # Edits of the list of objects and of the script: each gives another state.

    def replace(self):
        """One object becomes another by one change, now and then by two. Where sections without references are dropped,
        it is often the object from which all others are reached."""
        name = START if self.options.gc and self.chance(0.3) else self.one(*self.state.order)
        parts = self.changed(self.state.parts[name], 1)
        for _ in range(10):
            if parts != self.state.parts[name] and not self.chance(0.2):
                break
            parts = self.changed(parts, 1)
        return self.state.put(name, parts)

    def changed(self, parts, times):
        """An object after so many changes. One without sections first gets one."""
        for _ in range(times):
            parts = self.one(*self.OF_OBJECT)(self, parts) if parts.sections else self.one_section_more(parts)
        return parts

    def move(self):
        """An object to the front, to the end or between."""
        name = self.one(*self.state.order)
        others = [other for other in self.state.order if other != name]
        at = self.one(0, 0, len(others), self.random.randint(0, len(others)))
        return self.state.placed(others[:at] + [name] + others[at:])

    def add(self):
        """An object that was there before, mostly with other bytes, at times under another name; or a new one, at times
        without any section."""
        at = self.random.randint(0, len(self.state.order))
        free = sorted(name for name in self.gone if name not in self.state.order)
        if free and self.chance(0.7):
            name = self.one(*free)
            if self.chance(0.25):
                return self.state.added(self.new_name(), at, self.gone.pop(name))
            return self.state.added(name, at, self.changed(self.gone[name], self.one(0, 1, 1, 2)))
        return self.state.added(self.new_name(), at, Parts((), ()) if self.chance(0.1) else self.parts())

    def new_name(self):
        """The name of an object that was never there."""
        self.objects += 1
        return f"o{self.objects}.o"

    def remove(self):
        """An object goes, but for the one with the entry symbol."""
        others = [name for name in self.state.order if name != START]
        if len(others) < 2:
            return self.add()
        name = self.one(*others)
        self.gone[name] = self.state.parts[name]
        return self.state.without(name)

    def first_plan(self):
        """The script at the beginning."""
        kept = ("KEEP(*(.text.*_1))", "", "KEEP(*(.data.[a-d]))", "") if self.options.gc else ("", "", "", "")
        plan = Plan(regions=self.chance(0.4), also=kept)
        for _ in range(self.random.randint(0, 8)):
            plan = dataclasses.replace(plan, **self.change_of_plan(plan))
        return plan

    def script(self):
        """The script in one thing otherwise."""
        return self.state.planned(**self.change_of_plan(self.state.plan))

    def change_of_plan(self, plan):
        """What becomes otherwise in a script."""
        at = self.random.randrange(4)
        put = lambda values, value: values[:at] + (value,) + values[at + 1:]  # noqa: E731
        rest = [name for name in plan.order if name != ".text"]
        texts = ["QUAD(ADDR(.text))", "LONG(SIZEOF(.text))", "BYTE(1)", "SHORT(0x1234)", "QUAD(.)"]
        return self.one(
            {"base": self.one(0x400000, 0x401000, 0x401004, 0x402000, 0x500010)},
            {"base": plan.base + self.one(1, 8, 16, 0x1000)},
            {"base": plan.base + self.one(0x1000, -0x1000, 0x10000)},
            {"order": (".text", *self.random.sample(rest, len(rest)))},
            {"sorts": put(plan.sorts, self.one("", "SORT_BY_NAME", "SORT_BY_ALIGNMENT", "SORT"))},
            {"sorts": put(plan.sorts, self.one("", "SORT_BY_NAME", "SORT_BY_ALIGNMENT", "SORT"))},
            {"fills": put(plan.fills, self.one("", " =0x90", " =0x9091", " =0x001122", " =0xcc00cc00dd"))},
            {"fills": put(plan.fills, self.one("", " =0x90", " =0x9091", " =0x001122", " =0xcc00cc00dd"))},
            {"alignments": put(plan.alignments, self.one(1, 16, 64, 4096))},
            {"gap": put(plan.gap, self.one("", ". += 3;", ". += 17;", ". = ALIGN(8);", ". = ALIGN(64);"))},
            {"between": put(plan.between, self.one("", ". = ALIGN(4096);", ". += 0x10;", ". += 0x1001;"))},
            {"load": self.one(0, 0x100000, 0x100001, 0x200000)},
            {"regions": not plan.regions} if self.chance(0.3) else {"comment": self.one("", "/* a */", "/* b */")},
            {"provided": tuple(self.random.sample(plan.provided, len(plan.provided)))},
            {"data": tuple(self.random.sample(texts, self.random.randint(0, 2)))},
            {"data": tuple(self.random.sample(texts, self.random.randint(1, 3)))},
            {"also": put(plan.also, self.one(*ALSO))},
            {"also": put(plan.also, self.one(*ALSO))},
            {"discarded": self.one("", "", "/DISCARD/ : { *(.zz) }", "/DISCARD/ : { *(.bss.x) }")},
            {"comment": self.one("", "/* a */", "/* b, and\nmore */")},
        )

    STEPS = [replace] * 14 + [move] * 3 + [add] * 4 + [remove] * 4 + [script] * 4

    def refused(self):
        """An edit that is refused."""
        name = self.one(*self.state.order)
        data = self.state.parts[name].data
        return self.one(rows.replace(name, data[:-1]), rows.replace("none.o", data), rows.add(name, 0, data),
                        rows.add("new.o", len(self.state.order) + 1, data), rows.move(name, len(self.state.order)),
                        rows.remove("none.o"), rows.script(self.state.plan.text + "}"), rows.replace(name, b"\x7fELF"))

    # The list.

    def send(self, edit):
        """Answers an edit, and has all three queries after it."""
        found, _ = answers.next_command(edit, 0)
        _, self.project, self.linked = answers.answer(self.project, self.linked, found)
        self.data += edit + rows.MAP + rows.FAULTS + rows.IMAGE

    def go(self, state):
        """To another state by one edit. While there are faults the way back is kept, and what the object was that
        brought the first."""
        was_good = self.linked.status == 0
        self.send(command(self.state, state))
        if was_good:
            changed = [name for name in self.state.order if state.parts.get(name, self.state.parts[name])
                       != self.state.parts[name]]
            self.fix = (changed[0], self.state.parts[changed[0]]) if changed else None
        self.back = [] if self.linked.status == 0 else self.back + [self.state]
        self.last, self.state = self.state, state

    def step(self):
        """One edit: where there are faults, mostly the one that takes back the last, or the first of them; now and then
        that without a need; else a new one."""
        if self.back and self.fix and self.fix[0] in self.state.order and len(self.back) > 1:
            (name, parts), self.fix = self.fix, None
            self.go(self.state.put(name, parts))
        elif self.back and (len(self.back) > self.patience or self.chance(self.haste)):
            back, self.back = self.back[-1], self.back[:-1]
            earlier = self.back
            self.go(back)
            self.back = earlier if self.linked.status != 0 else []
        elif self.chance(0.06):
            self.send(self.refused())
        elif self.chance(0.12):
            self.go(self.last)
        else:
            self.go(self.one(*self.STEPS)(self))

    def make_list(self, count):
        """A script and some objects, and then this number of edits, each followed by all three queries."""
        self.send(rows.script(self.state.plan.text))
        self.state = self.state.added(START, 0, self.parts(True))
        self.send(rows.add(START, 0, self.state.parts[START].data))
        for _ in range(self.random.randint(2, 7)):
            at = self.random.randint(0, len(self.state.order))
            self.go(self.state.added(self.new_name(), at, self.parts()))
        for _ in range(count):
            self.step()
        return self
