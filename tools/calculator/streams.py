"""Random streams of commands with their answers, for comparing a linker with the calculator.

    tools/model-streams FOLDER COUNT [SEED]

writes COUNT streams and prints which answers, faults and refusals they have. A seed always gives the same streams.
Objects and scripts are mostly good; each stream has a measure of trouble, by which names are missing or doubled,
addresses meet, fields overflow, and bytes are broken. In half of the streams most edits replace an object by one that
is alike but for what its sections hold, or for one thing more, and scripts come back.
"""
import collections
import dataclasses
import os
import random
import re
import sys

from . import answers, edits, elf, objects, relocation, rows, tree
from .build import Rel, Sec, Sym, build
from .link import link
from .names import Case, Decisions
from .tokens import NAME_FORM

SHARED = ["w", "f", "g", "_start", "main", "end", "tbl", "buf", "v.1", "$x", "small", "top"]
FILES = ["a.o", "b.o", "c.o", "lib/d.o", "lib/e.o", "x*.o", "[y].o", "z.obj", "crt0.o"]
SECTION_NAMES = [".text", ".text.f", ".text.g", ".data", ".data.x", ".bss", ".bss.z", ".rodata", ".rodata.s",
                 ".init_array", ".note", ".odd-1", ".[set]", "COMMON", ".ctors"]
PATTERNS = [".text", ".text.*", ".text.?", ".data*", ".bss .bss.*", ".ro*", "*", ".[a-d]*", ".[rt]*", ".*_array",
            ".note", "COMMON", ".\\[set\\]", ".odd[-]?", ".[b-a]*", ".ctors", "*.f", ".d[a-z]ta"]
FILE_PATTERNS = ["*"] * 8 + ["a.o", "*.o", "lib/*", "?.o", "[a-c].o", "x\\*.o", "*d.o", "\\[y\\].o", "crt*"]
EXCLUDED = ["b.o", "a*", "lib/*", "*.obj", "x\\*.o", "?.o"]
OUTPUTS = [".text", ".data", ".bss", ".rodata", ".init", "out-1", "_z", ".x1", "Y", ".rest"]
NAMES = ["base", "top", "end", "small", "w", "__start", "k1", "k2", "late", "a-b", "f"]
ALL_TYPES = sorted(relocation.WIDTHS)
ADDRESS_TYPES = [1, 2, 4, 10, 11, 24]


class Chance:
    """A source of choices. `trouble` is from 0 to 1."""

    def __init__(self, source, trouble):
        self.random, self.trouble = source, trouble

    def chance(self, probability):
        return self.random.random() < probability

    def bad(self, probability):
        """A chance of trouble."""
        return self.chance(probability * self.trouble)

    def one(self, *choices):
        return self.random.choice(choices)

    def of(self, choices):
        return self.random.choice(choices)

    def upto(self, most):
        return self.random.randint(0, most)


class Objects(Chance):
    """A source of relocatable objects."""

    serial = 0

    def __init__(self, source, trouble):
        super().__init__(source, trouble)
        self.parts = {}

    def object(self):
        """The bytes of an object, now and then with broken bytes."""
        self.serial += 1
        sections = [self.section() for _ in range(self.random.randint(0, 5))]
        return self.built(sections, self.symbols(sections))

    def built(self, sections, symbols):
        """An object of these, with any relocations. Its parts are kept, unless its bytes are broken."""
        data = build(sections, symbols, self.relocations(sections, symbols))
        if self.bad(0.35):
            return self.broken(data)
        self.parts[data] = sections, symbols
        return data

    def alike(self, data):
        """An object that differs from one that was made in what its sections hold; at times in one thing more."""
        if data not in self.parts:
            return self.object()
        sections, symbols = self.parts[data]
        if self.chance(0.8):
            sections = [dataclasses.replace(section, content=self.random.randbytes(len(section.content)))
                        for section in sections]
        if self.chance(0.3):
            sections, symbols = self.near(list(sections), list(symbols))
        return self.built(sections, symbols)

    def near(self, sections, symbols):
        """The same sections and symbols, but for one thing."""
        of = self.one(sections, symbols)
        if not of:
            return sections, symbols
        at = self.upto(len(of) - 1)
        one = of[at]
        if of is symbols:
            of[at] = self.one(dataclasses.replace(one, size=one.size + 1),
                              dataclasses.replace(one, value=one.value + 1),
                              dataclasses.replace(one, kind=1 - min(one.kind, 1)),
                              dataclasses.replace(one, name=self.of(SHARED)))
        else:
            of[at] = self.one(dataclasses.replace(one, alignment=2 * one.alignment),
                              dataclasses.replace(one, flags=one.flags ^ elf.SHF_WRITE),
                              dataclasses.replace(one, name=self.of(SECTION_NAMES)),
                              dataclasses.replace(one, content=one.content + b"\x90"))
        return sections, symbols

    def section(self):
        name = self.of(SECTION_NAMES)
        flags = elf.SHF_ALLOC | self.one(0, elf.SHF_WRITE, elf.SHF_EXECINSTR, elf.SHF_WRITE | elf.SHF_EXECINSTR)
        flags |= self.one(0, 0, 0, elf.SHF_MERGE, elf.SHF_STRINGS)
        if self.chance(0.08):
            flags = self.one(0, elf.SHF_WRITE)
        alignment = self.one(0, 1, 1, 1, 2, 4, 8, 16, 64)
        if name.startswith(".bss") or self.chance(0.05):
            size = self.one(0, 1, 5, 16, 40, 4096) if not self.bad(0.1) else self.one(2 ** 31, 2 ** 30)
            return Sec(name, b"", flags, elf.SHT_NOBITS, alignment, size)
        kinds = (elf.SHT_PROGBITS,) * 8 + (elf.SHT_NOTE, elf.SHT_INIT_ARRAY, elf.SHT_FINI_ARRAY, elf.SHT_PREINIT_ARRAY,
                                           elf.SHT_X86_64_UNWIND)
        size = self.one(0, 1, 2, 3, 4, 5, 8, 13, 24, 40)
        content = bytes(self.random.randrange(256) for _ in range(size))
        return Sec(name, content, flags, self.of(kinds), alignment)

    def value(self, sections, number):
        """A value in, at the end of or past a section; rarely near 2^64."""
        size = max(len(sections[number - 1].content), sections[number - 1].size)
        return self.one(0, 0, 0, size, size // 2, size + 7) if not self.bad(0.05) else 2 ** 64 - 8

    def symbols(self, sections):
        """Local ones, one's own strong ones, and shared names in any way."""
        found, numbers = [], list(range(1, len(sections) + 1))
        for _ in range(self.upto(3)):
            if numbers and self.chance(0.7):
                at = self.of(numbers)
                found.append(Sym(f"L{self.upto(9)}", at, self.value(sections, at), 0, elf.STB_LOCAL, self.upto(3)))
            else:
                found.append(Sym("abs", elf.SHN_ABS, self.absolute(), 0, elf.STB_LOCAL, self.one(0, 4)))
        if numbers:
            at = self.of(numbers)
            value = self.value(sections, at)
            found.append(Sym(f"own{self.serial}", at, value, self.upto(9), elf.STB_GLOBAL, self.upto(2)))
        for name in self.random.sample(SHARED, self.upto(5)):
            found.append(self.shared(name, sections, numbers))
        return found

    def absolute(self):
        return self.one(0, 1, 5, 127, 128, 255, 256, 0x7FFF, 0x10000, 2 ** 31, 2 ** 64 - 1)

    def shared(self, name, sections, numbers):
        """A shared name: undefined, weak, common, absolute or strong."""
        way = self.random.random()
        kind = self.one(0, 1, 2, 5)
        if way < 0.35 or not numbers and way < 0.75:
            binding = elf.STB_WEAK if self.chance(0.5) and not self.bad(0.7) else elf.STB_GLOBAL
            return Sym(name, elf.SHN_UNDEF, 0, 0, binding, kind)
        if way < 0.65:
            at = self.of(numbers) if numbers else elf.SHN_ABS
            value = self.value(sections, at) if numbers else self.absolute()
            return Sym(name, at, value, self.upto(16), elf.STB_WEAK, kind)
        if way < 0.85:
            return Sym(name, elf.SHN_COMMON, self.one(1, 4, 8, 32), self.one(0, 1, 4, 17), elf.STB_GLOBAL, kind)
        if not self.bad(0.8) or not numbers:
            return Sym(name, elf.SHN_ABS, self.absolute(), 3, elf.STB_WEAK, kind)
        at = self.of(numbers)
        return Sym(name, at, self.value(sections, at), self.upto(16), elf.STB_GLOBAL, kind)

    def relocations(self, sections, symbols):
        """Fields that share no byte, in each section that has bytes and is allocated."""
        found = []
        ordered = sorted(symbols, key=lambda symbol: symbol.binding != elf.STB_LOCAL)
        for of, section in enumerate(sections, 1):
            at = self.upto(3)
            while at < len(section.content) and self.chance(0.75):
                number = self.upto(len(ordered))
                symbol = ordered[number - 1] if number > 0 else None
                kind = self.type_for(symbol)
                if at + relocation.WIDTHS[kind] > len(section.content):
                    break
                found.append(Rel(of, at, kind, number, self.one(0, 0, -4, 1, 8, -1) if not self.bad(0.1)
                                 else self.one(-2 ** 63, 2 ** 31, 2 ** 63 - 1)))
                at += relocation.WIDTHS[kind] + self.upto(4)
        return self.random.sample(found, len(found)) if self.chance(0.3) else found

    def type_for(self, symbol):
        """A type that mostly has room for the symbol's value."""
        if self.bad(0.15):
            return self.of(ALL_TYPES)
        if symbol is None:
            return self.one(0, 1, 10, 11, 12, 14)
        if symbol.section == elf.SHN_ABS and symbol.value < 120 and symbol.binding == elf.STB_LOCAL:
            return self.one(10, 11, 12, 14, 1)
        if symbol.section == elf.SHN_ABS or symbol.binding != elf.STB_LOCAL:
            return self.one(1, 24, 1, 24, 0, 2 if not self.bad(0.5) else 10)
        return self.of(ADDRESS_TYPES)

    def broken(self, data):
        """The end cut off; or bytes of the file header, a section header, a symbol or a relocation changed."""
        if self.chance(0.07):
            return data[:self.upto(len(data))]
        changed = bytearray(data)
        for _ in range(self.one(1, 1, 1, 2)):
            place = self.one(self.anywhere, self.in_header, self.in_symbols, self.in_relocations, self.in_relocations)
            changed[place(data)] = self.one(0, 1, 2, 3, 4, 5, 9, 0x10, 0x12, 0x17, 0x20, 0x7F, 0xF1, 0xF2, 0xFF)
        return bytes(changed)

    def anywhere(self, data):
        return self.one(self.upto(63), self.upto(len(data) - 1))

    def in_header(self, data):
        """A field of a section header."""
        table = elf.number(data, 40, 8)
        return table + 64 * self.upto((len(data) - table) // 64 - 1) + self.one(0, 4, 8, 24, 32, 40, 44, 48, 56)

    def in_entry(self, data, kind, fields):
        """A field of an entry of a section of that type, or of its header; anywhere without one."""
        found = [header for header in objects.File(data).sections if header.kind == kind and header.size > 0]
        if not found:
            return self.in_header(data)
        header = self.of(found)
        if self.chance(0.3):
            return elf.number(data, 40, 8) + 64 * header.number + self.one(32, 40, 44, 56)
        return header.offset + 24 * self.upto(header.size // 24 - 1) + self.of(fields)

    def in_symbols(self, data):
        """st_name, st_info, st_shndx, st_value, st_size."""
        return self.in_entry(data, elf.SHT_SYMTAB, (0, 4, 4, 6, 6, 7, 8, 19))

    def in_relocations(self, data):
        """r_offset, the type and the symbol of r_info."""
        return self.in_entry(data, elf.SHT_RELA, (0, 0, 0, 0, 8, 12))


class Expressions(Chance):
    """A source of expressions."""

    def number(self):
        return self.one("0", "1", "2", "4", "8", "0x10", "07", "1K", "0x1000", "3", "64", "0x401000", "1M", "0X7f",
                        "18446744073709551615")

    def expression(self, known, depth=2, dot=True):
        """An expression of known names; trouble brings unknown ones, 0 and bad alignments."""
        inside = lambda: self.expression(known, depth - 1, dot)
        way = self.upto(11) if depth > 0 else self.upto(3)
        if way <= 2:
            return self.number()
        if way == 3:
            return self.primary(known, dot)
        if way == 4:
            return f"({inside()})"
        if way == 5:
            return f"{self.one('!', '-', '~')}{inside()}"
        if way == 6:
            return f"({inside()} ? {inside()} : {inside()})"
        if way == 7:
            alignment = self.one("1", "4", "16", "0x1000") if not self.bad(0.2) else self.one("0", "3", inside())
            return f"ALIGN({alignment})" if dot and self.chance(0.5) else f"ALIGN({inside()}, {alignment})"
        if way == 8:
            divisor = self.one("1", "3", "(1 + 0x10)") if not self.bad(0.2) else self.one("0", inside())
            return f"{inside()} {self.one('/', '%')} {divisor}"
        operator = self.one("*", "+", "-", "<<", ">>", "<", "<=", ">", ">=", "==", "!=", "&", "|", "&&", "||")
        return f"{inside()} {operator} {inside()}"

    def primary(self, known, dot):
        """`.`, a name, or a function of a region or section that is there."""
        if dot and self.chance(0.4):
            return "."
        if self.bad(0.15):
            return self.one("late", "nope", "SIZEOF(.nope)", "w", "ADDR(.rest)")
        choices = known["symbols"][:] + [f"{function}({name})" for name in known["sections"]
                                         for function in tree.OF_SECTION]
        choices += [f"{function}({name})" for name in known["regions"] for function in tree.OF_REGION]
        return self.of(choices) if choices else self.number()


class Scripts(Expressions):
    """A source of scripts. `defined` are names that ENTRY may well name."""

    defined = ()

    def script(self):
        """The text of a script; now and then a token or a byte of it is broken."""
        known = {"symbols": [], "sections": [], "regions": []}
        self.free = self.random.sample(NAMES, len(NAMES))
        parts = []
        if self.defined and self.chance(0.3) or self.bad(0.1):
            names = self.defined if self.defined and not self.bad(0.2) else ["_start", "main", "w", "own1", "base"]
            parts.append(f"ENTRY({self.of(names)})")
        if self.chance(0.35):
            parts.append(self.memory(known))
        parts += [self.symbol(known, dot=False) for _ in range(self.upto(2))]
        parts.append(self.sections(known))
        parts += [self.symbol(known, dot=False) for _ in range(self.upto(1))]
        parts += [self.assertion(known) for _ in range(self.upto(2))]
        text = self.spaced(" ".join(parts))
        return self.broken_text(text) if self.bad(0.25) else text

    def memory(self, known):
        regions, text = self.random.sample(["r1", "rom", "ram-2"], self.random.randint(1, 3)), ""
        for at, name in enumerate(regions):
            length = self.one("1M", "64K", "0x10000") if not self.bad(0.3) else self.one("8", "0", "0x20", "-1")
            origin = f"{0x10000 * (at + 1):#x}" if not self.bad(0.1) else self.expression(known, dot=False)
            text += f" {name} : ORIGIN = {origin}, LENGTH = {length}"
            known["regions"].append(name)
        return f"MEMORY {{{text} }}"

    def symbol(self, known, dot=True):
        """An assignment or a PROVIDE of a name that is still free."""
        if not self.free:
            return ";"
        name, value = self.free.pop(), self.expression(known, 2, dot)
        if self.chance(0.5):
            return f"PROVIDE({name} = {value})" + self.one("", ";")
        if name in SHARED and not self.bad(0.5):
            return f"PROVIDE({name} = {value});"
        known["symbols"].append(name)
        return f"{name} = {value};"

    def assertion(self, known):
        """An ASSERT that mostly holds."""
        value = self.expression(known, 2, dot=False)
        if not self.bad(0.6):
            value = f"({value}) || 1" if self.chance(0.5) else f"1 || {self.one('nope', 'SIZEOF(.nope)', '1 / 0')}"
        elif self.chance(0.5):
            value = self.one(*SHARED, "SIZEOF(.text)", "nope", "0", "ADDR(.rest) > 0")
        return f'ASSERT({value}, "{self.one("too big", "x", "", "a: {b} /* c */;")}")' + self.one("", ";")

    def sections(self, known):
        """SECTIONS: a start, some output sections, and at the end mostly one that takes all that is left."""
        items = [". = " + (self.one("0x400000", "0x401000", "0x1000 * 0x401", "0x10010") if not self.bad(0.1)
                           else self.one("0xFFFFFFFFFFFFFFF0", "~0", "0", self.expression(known))) + ";"]
        names = self.random.sample(OUTPUTS, self.random.randint(0, 4))
        discarded = self.chance(0.2) and f"/DISCARD/ : {{ {self.input()} {self.one('', ';')} }}"
        if discarded and self.chance(0.5):
            items.append(discarded)
        for name in names:
            items += [self.item(known) for _ in range(self.upto(2))]
            items.append(self.section(name, known))
            known["sections"].append(name)
        if discarded and discarded not in items:
            items.append(discarded)
        if not self.bad(0.3) and ".rest" not in names:
            items.append(".rest : { *(*) }")
        return "SECTIONS { " + " ".join(items) + " }"

    def item(self, known):
        """A statement between output sections."""
        way = self.upto(6)
        if way == 0:
            return ". = ALIGN(%s);" % self.one("0x1000", "16", "4K")
        if way == 1:
            return ". += %s;" % self.one("0x10", "0x1000", "3")
        if way == 2 and self.bad(0.6):
            return ". = . - 0x20;" if self.chance(0.7) else f". = {self.expression(known)};"
        if way == 3:
            return self.assertion(known)
        return self.symbol(known) if way < 6 else ";"

    def section(self, name, known):
        """An output section with any head, body and tail."""
        address = " " + self.one(". + 0x20", "0x421000", "ALIGN(64)") if self.chance(0.15) else ""
        if self.bad(0.1):
            address = " " + self.expression(known, 1)
        load = f" AT({self.one('0x900000', '0x900000', 'ADDR(' + name + ')') if self.bad(0.5) else '. + 0x100000'})"
        load = load if self.chance(0.2) else ""
        alignment = f" ALIGN({self.one('16', '4', '1', '0x40') if not self.bad(0.2) else self.one('0', '3', 'nope')})"
        alignment = alignment if self.chance(0.2) else ""
        body = " ".join(self.statement(known) for _ in range(self.upto(5)))
        tail = ""
        if known["regions"] and self.chance(0.5):
            tail += f" >{self.of(known['regions'])}"
        if known["regions"] and not load and self.chance(0.3):
            tail += f" AT>{self.of(known['regions'])}"
        tail += self.one(" =0x90", " =0x9091", "=0x0011223344556677", " =0xcc00cc") if self.chance(0.25) else ""
        return f"{name}{address} :{load}{alignment} {{ {body} }}{tail}"

    def statement(self, known):
        """A statement in an output section; input statements most of all."""
        way = self.upto(11)
        if way == 0:
            return self.one(". += 3;", ". = . + 0x10;", ". = ALIGN(8);", ". = ALIGN(ALIGN(16) * 0 + 4);", ". += . & 3;")
        if way == 1 and self.bad(0.5):
            return self.one("QUAD(0) . = 2;", ". = 0x1000;", ". = 1;", ". = . + -1;", f". = {self.expression(known)};",
                            "BYTE(1) . = ALIGN(1 << 63) ;" if self.bad(0.3) else "BYTE(. & 1)")
        if way == 2:
            return f"{self.one('BYTE', 'SHORT', 'LONG', 'QUAD')}({self.expression(known)})" + self.one("", ";")
        if way == 3:
            return self.symbol(known)
        if way == 4 and self.chance(0.3):
            return self.assertion(known)
        if way == 5 and self.chance(0.1):
            return "QUAD(1) . += 0x10000000;" if self.bad(0.3) else ". = . + 0x100;"
        return self.input()

    def input(self):
        """An input statement."""
        file = self.of(FILE_PATTERNS)
        patterns = " ".join(self.of(PATTERNS) for _ in range(self.one(1, 1, 2, 3)))
        if self.chance(0.25):
            sort = self.one("SORT", "SORT_BY_NAME", "SORT_BY_ALIGNMENT")
            plain = f"{file}({sort}({patterns}))"
        else:
            if self.chance(0.2):
                excluded = " ".join(self.random.sample(EXCLUDED, self.one(1, 1, 2)))
                patterns = f"{self.one('', '.text ')}EXCLUDE_FILE({excluded}) {patterns}"
            plain = f"{file}({patterns})"
        return f"KEEP({plain})" if self.chance(0.2) else plain

    def spaced(self, text):
        """Some spaces become line feeds, tabs or comments, outside strings."""
        parts = re.split(r'("[^"]*")', text)
        choices = [" "] * 12 + ["\n", "\n", "\t", " /* c */ ", "\r\n", "  "]
        return "".join(part if part.startswith('"') else re.sub(" ", lambda _: self.of(choices), part)
                       for part in parts)

    def broken_text(self, text):
        """A token put in, taken out or doubled; a byte changed; or something given twice."""
        tokens = re.findall(r"\s+|[A-Za-z0-9_.$-]+|.", text, re.S)
        at = self.upto(len(tokens) - 1)
        way = self.upto(5)
        if way == 0:
            del tokens[at]
        elif way == 1:
            if self.chance(0.3):
                return text + self.one(" x1 = " + "~" * 65 + "1;", " x2 = 18446744073709551616;",
                                       " " + "n" * 256 + " = 1;")
            tokens.insert(at, self.one("{", "}", "(", ")", ";", ".", "+=", "=", ":", "`", "@", '"', "/*", "SORT",
                                       "KEEP", "08", "1x", "\\", "]", "[", "&", "x = 1;", " ORIGIN(zz) ", "ENTRY(q)",
                                       "99999999999999999999"))
        elif way == 2:
            tokens[at] = self.one(".", "ALIGN(4)", "1", "x", "AT", "*", "~" * 70 + "1", "(" * 65, "n" * 256,
                                  "18014398509481984K")
        elif way == 3:
            return text + self.one(" MEMORY { }", " SECTIONS { }", " x1 = .;", " ASSERT(., \"d\")", " base = 1;",
                                   " ENTRY(a) ENTRY(b)", " MEMORY { q : ORIGIN = ., LENGTH = 1 }", " x = ORIGIN(none);")
        elif way == 4:
            tokens.insert(at, tokens[at])
        else:
            return text[:self.upto(len(text))]
        return "".join(tokens)


class Streams:
    """One stream: commands from a maker, answered as they come, so that most of them fit the project."""

    def __init__(self, seed, alike=False):
        source, trouble = random.Random(seed), (0.0, 0.15, 0.4, 1.0)[seed % 4]
        self.alike, self.latest, self.earlier = alike, {}, []
        self.objects, self.scripts = Objects(source, trouble), Scripts(source, trouble)
        self.maker = maker = Chance(source, trouble)
        entry = self.maker.one("_start", "w", "own1", "own1") if maker.chance(0.05) else None
        self.options = edits.Options(maker.chance(0.35), entry, "discard" if maker.chance(0.3) else "error")
        self.project = edits.Project(options=self.options)
        self.linked = link(self.project)
        self.data, self.status, self.seen = b"", 0, collections.Counter()

    def send(self, command):
        """Answers one command, counts what the answer shows, and keeps the next project."""
        found, _ = answers.next_command(command, 0)
        answer, self.project, self.linked = answers.answer(self.project, self.linked, found)
        self.data += command
        first = elf.text(answer.split(b"\n")[0]).split(" ")
        self.seen[found.word + (" " + " ".join(first) if first[0] == "refused" else " " + " ".join(first[:2]))
                  if first[0] != "bytes" else found.word] += 1
        if found.word not in answers.QUERIES and first[0] == "linked":
            for line in {line.split(b" ")[0] for line in self.linked.faults.split(b"\n") if line}:
                self.seen["fault " + elf.text(line)] += 1

    def make(self):
        """A script and some objects, then edits and queries; sometimes a bad tail."""
        maker = self.maker
        start = [self.script] + [self.add] * maker.random.randint(1, 5)
        for step in maker.random.sample(start, len(start)):
            self.send(step())
        for _ in range(maker.random.randint(4, 16)):
            self.send(self.edit())
            for query in (rows.MAP, rows.FAULTS, rows.IMAGE):
                if maker.chance(0.4) and (query != rows.IMAGE or len(self.linked.image) < 100_000):
                    self.send(query)
        if maker.bad(0.3):
            self.data += maker.one(b"image", b"add a.o 01 0\n", b"script 9\nSECT", b"move a.o\n", b"\n", b"map \n",
                                   b"Remove a\n")
        return self

    def make_list(self, count):
        """A script and some objects, and then this number of edits, all five kinds among them, each followed by all
        three queries."""
        maker = self.maker
        start = [self.script] + [self.add] * maker.random.randint(1, 5)
        kinds = [self.add, self.replace, self.move, self.remove, self.script]
        kinds += [self.edit] * (count - len(kinds))
        for step in maker.random.sample(start, len(start)) + maker.random.sample(kinds, len(kinds)):
            self.send(step())
            for query in (rows.MAP, rows.FAULTS, rows.IMAGE):
                self.data += query
        return self

    def edit(self):
        """One of the five edits; where alike objects are wanted, mostly one by such an object."""
        if self.alike and self.project.members and self.maker.chance(0.7):
            return self.replace_alike()
        return self.maker.one(self.add, self.replace, self.replace, self.move, self.remove, self.script)()

    def name(self, known):
        """A name of the project, or with trouble or without need another one."""
        maker, names = self.maker, self.project.names
        if maker.bad(0.1):
            return maker.one("no.o", "n" * 256, "\x7f", names[0] if names else "a.o")
        others = [name for name in FILES if name not in names]
        return maker.of(names if known and names else others or FILES)

    def position(self, most):
        return most + 1 + self.maker.upto(3) if self.maker.bad(0.1) else self.maker.upto(most)

    def kept(self, name, data):
        """The bytes, which are the latest that were sent under this name."""
        self.latest[name] = data
        return data

    def add(self):
        name = self.name(False)
        return rows.add(name, self.position(len(self.project.members)), self.kept(name, self.objects.object()))

    def replace(self):
        name = self.name(True)
        return rows.replace(name, self.kept(name, self.objects.object()))

    def replace_alike(self):
        name = self.name(True)
        return rows.replace(name, self.kept(name, self.objects.alike(self.latest.get(name))))

    def move(self):
        return rows.move(self.name(True), self.position(max(0, len(self.project.members) - 1)))

    def remove(self):
        return rows.remove(self.name(True))

    def script(self):
        """A script; where alike objects are wanted, at times one that was set before."""
        if self.alike and self.earlier and self.maker.chance(0.5):
            return self.maker.of(self.earlier)
        decisions = Decisions(self.project)
        self.scripts.defined = [name for name in decisions.names if decisions.of(name).case is not Case.UNDEFINED
                                and NAME_FORM.fullmatch(name)]
        made = rows.script(self.scripts.script())
        self.earlier.append(made)
        return made


def main(folder, count, seed=0):
    """Makes and stores the streams of consecutive seeds, and prints what they show."""
    sys.setrecursionlimit(10_000)
    os.makedirs(folder, exist_ok=True)
    seen = collections.Counter()
    for at in range(seed, seed + count):
        made = Streams(at, alike=at // 4 % 2 == 1).make()
        seen.update(made.seen)
        rows.store(folder, f"{at:05}", made.options, made.data)
    for what, times in sorted(seen.items()):
        print(f"{times:7} {what}")
