"""Projects for benches: n objects as a compiler of `-ffunction-sections` writes them, and a script like a kernel's."""
import random

from . import elf
from .build import CODE, DATA, READ_ONLY, Rel, Sec, Sym, build

SCRIPT = b"""ENTRY(_start)
SECTIONS {
  . = 0x401000;
  .text : { KEEP(*(.text.start)) *(.text .text.*) }
  . = ALIGN(4096);
  .rodata : { *(.rodata .rodata.*) }
  . = ALIGN(4096);
  .data : { *(.data .data.*) }
  .bss : { *(.bss .bss.*) *(COMMON) }
  PROVIDE(end = .);
}
"""

FUNCTIONS, DATA_OBJECTS, RELOCATIONS = 10, 5, 250
PLT32, ABS32 = 4, 10
LONGER, VALUE, CALL, FUNCTION, SECTION = range(5)


def called(number, count, chance):
    """The name of a function of some object, this one or another."""
    other = chance.randrange(count) if chance.random() < 0.5 else number
    return f"f{other}_{chance.randrange(FUNCTIONS)}"


def project_object(number, count, size=512, code=b"\x90", another=False, other=None):
    """Object `number` of `count`: ten functions of 25 relocations each, calls and addresses, and five data objects.

    `code` is what a function is filled with; `another` asks for one more global symbol. `other` is one thing besides
    that is otherwise: LONGER, the first function by 16 bytes; VALUE, the first data object's symbol by 8; CALL,
    FUNCTION or SECTION, one more.
    """
    chance = random.Random(number)
    sections, symbols, relocations, wanted = [], [], [], {}
    for k in range(FUNCTIONS):
        name = "_start" if number == 0 and k == 0 else f"f{number}_{k}"
        section = ".text.start" if name == "_start" else f".text.{name}"
        longer = 16 if k == 0 and other == LONGER else 0
        sections.append(Sec(section, code * (size + longer), CODE, alignment=16))
        symbols.append(Sym(name, len(sections), 0, size, elf.STB_GLOBAL, elf.STT_FUNC))
        if name == "_start":
            symbols.append(Sym(f"f{number}_{k}", len(sections), 0, size, elf.STB_GLOBAL, elf.STT_FUNC))
        for i in range(RELOCATIONS // FUNCTIONS):
            if i % 5 == 4:
                relocations.append((len(sections), 1 + 20 * i, ABS32, f"d{number}_{i % DATA_OBJECTS}", 0))
            else:
                relocations.append((len(sections), 1 + 20 * i, PLT32, called(number, count, chance), -4))
    for k in range(DATA_OBJECTS):
        sections.append(Sec(f".data.d{number}_{k}", bytes(64), DATA, alignment=8))
        value = 8 if k == 0 and other == VALUE else 0
        symbols.append(Sym(f"d{number}_{k}", len(sections), value, 64 - value, elf.STB_GLOBAL, elf.STT_OBJECT))
    sections.append(Sec(f".rodata.r{number}", b"text\0" * 20, READ_ONLY))
    if other == CALL:
        relocations.append((1, 501, PLT32, "f0_1", -4))
    if other == FUNCTION:
        sections.append(Sec(f".text.f{number}_{FUNCTIONS}", code * size, CODE, alignment=16))
        symbols.append(Sym(f"f{number}_{FUNCTIONS}", len(sections), 0, size, elf.STB_GLOBAL, elf.STT_FUNC))
        relocations.append((len(sections), 1, PLT32, "f0_1", -4))
    if other == SECTION:
        sections.append(Sec(f".data.more{number}", bytes(64), DATA, alignment=8))
    if another:
        symbols.append(Sym(f"another{number}", 1, 0, size, elf.STB_GLOBAL, elf.STT_FUNC))
    have = {symbol.name for symbol in symbols}
    for entry in relocations:
        if entry[3] not in have and entry[3] not in wanted:
            wanted[entry[3]] = Sym(entry[3])
    symbols += wanted.values()
    numbers = {symbol.name: i + 1 for i, symbol in enumerate(symbols)}
    return build(sections, symbols, [Rel(of, at, kind, numbers[name], addend)
                                     for of, at, kind, name, addend in relocations])
