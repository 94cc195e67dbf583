"""Rows for the bytes of images: those of the worked rows after each edit, the order of relocations, contents without
file bytes, gaps and their fills, data commands, the ends of each relocation type's range, faults of relocation, tails.

What must stand in an image is put together here from the rules, by lists and numbers, and not by code that makes one.
"""
import random
import struct

from . import elf
from .build import CODE, DATA, READ_ONLY, Rel, Sec, Sym, build, object_a
from .edits import Options
from .rows import FAULTS, IMAGE, MAP, Row, add, at, has_lines, length, linked, move, remove, replace, script, text

ABS, COMMON, LOCAL, WEAK = elf.SHN_ABS, elf.SHN_COMMON, elf.STB_LOCAL, elf.STB_WEAK
START = 0x1000
NEAR = f"SECTIONS {{ . = {START:#x}; "
FIRST = 4096  # the offset of the first section's bytes in an image of a few pages at START


def accepted(answer):
    """An edit that is accepted, with or without faults."""
    return answer.startswith(b"linked")


def whole(start, data):
    """The image ends with these bytes, which begin at this offset."""
    return lambda answer: answer[answer.index(b"\n") + 1:][start:] == data


def section(data, start=FIRST):
    """The image has these bytes at the offset."""
    return at({start: data.hex()})


# Worked rows, with an image after each edit.

def word(number, width=8):
    """A number as its bytes, in hexadecimal."""
    return (number % 2 ** (8 * width)).to_bytes(width, "little").hex()


def absolute(name_at, value):
    """A symbol of the script in the image's table, in hexadecimal."""
    return word(name_at, 4) + "10 00 F1 FF" + word(value) + word(0)


# By the titles of worked rows: what stands at some offsets of the image after the edit of that number.
PLACES = {
    "duplicate name": {1: {56: "00 00"}, 3: {4096: "90" * 8, 96: word(8)}, 5: {4096: "90" * 8}},
    "provide comes and goes": {
        2: {64: "00" * 24 + absolute(1, 0x500000)},
        3: {64: "01 00 00 00 06 00 00 00", 120: "00" * 24 + "01 00 00 00 11 00 01 00" + word(0x500000) + word(4)},
        4: {64: "00" * 24 + absolute(1, 0x500000)}, 5: {64: "00" * 24 + "00 00"}},
    "collected": {4: {4096: "E8 05 00 00 00 E8 10 00 00 00" + "90" * 17},
                  5: {4096: "E8 05 00 00 00 E8 00 00 00 00 90"}, 6: {4096: "E8 05 00 00 00 E8 00 00 00 00 90"}},
    "from one state, edit 1": {5: {4096: "E8 05 00 00 00 E8 00 00 00 00 90"}},
    "from one state, edit 2": {5: {4096: "E8 05 00 00 00 E8 10 00 00 00" + "90" * 17}},
    "load addresses": {4: {4096: "90" * 6, 8192: "00" * 8, 8200: "00"}, 5: {4096: "90" * 10 + "00 00", 8200: "00"}},
    "layout again": {3: {4096: "90 90 90 C3 00", 8192: "00" * 8}, 4: {8192: "00" * 12}, 5: {4096: "90" * 8 + "00"}},
    "SECTIONS { . = 0x401000 + ALIGN(3, 4) * 2;": {2: {4096 + 8: "90 90 90 C3", 80: word(0x401008)}},
    "base = 0x400000; SECTIONS { . = base | 1 << 12;": {2: {4096: "90 90 90 C3", 80: word(0x401000)}},
    "SECTIONS { . = 0 && 1 / 0;": {2: {4096: "90 90 90 C3", 80: word(0)}},
    "a-b = 0x401000; SECTIONS { . = a-b;": {2: {4096: "90 90 90 C3", 80: word(0x401000)}},
    "replaced by itself": {2: {4096: "90 90 90 C3"}, 3: {4096: "90 90 90 C3"}, 4: {4096: "90 90 90 C3" * 2},
                           5: {4096: "90 90 90 C3" * 2}, 6: {4096: "90 90 90 C3", 96: word(4)}},
    "the greatest number": {1: {64: "00" * 24 + absolute(1, 2 ** 64 - 1)}},
    "64 operators": {1: {64: "00" * 24 + absolute(1, 1)}},
}


def imaged(row, places):
    """The edits of a row with all three queries after each, and what stands in the image after some."""
    steps, count = [], 0
    for command, wanted in row.steps:
        if command in (IMAGE, MAP, FAULTS):
            continue
        count += 1
        steps.append((command, wanted))
        steps.append((IMAGE, at(places.get(count, {}))))
        steps += [(MAP, anything), (FAULTS, anything)]
    assert max(places) <= count
    return Row(f"images of {row.title}", steps, row.options, row.status)


def anything(answer):
    """The answer to a query."""
    return answer.startswith(b"bytes")


def worked_images(worked_rows):
    found = {row.title: row for row in worked_rows if row.title in PLACES}
    return [imaged(found[title], places) for title, places in PLACES.items()]


# Relocations.

# Each type of the profile, its width, and the least and the greatest number that it takes.
RANGES = [
    ("64", 1, 8, 0, 2 ** 64 - 1), ("PC32", 2, 4, -0x80000000, 0x7FFFFFFF), ("PLT32", 4, 4, -0x80000000, 0x7FFFFFFF),
    ("32", 10, 4, 0, 0xFFFFFFFF), ("32S", 11, 4, -0x80000000, 0x7FFFFFFF), ("16", 12, 2, -0x8000, 0xFFFF),
    ("PC16", 13, 2, -0x8000, 0x7FFF), ("8", 14, 1, -0x80, 0xFF), ("PC8", 15, 1, -0x80, 0x7F),
    ("PC64", 24, 8, 0, 2 ** 64 - 1)]
RELATIVE = [kind for name, kind, *_ in RANGES if name.startswith(("PC", "PLT"))]
SYMBOL = 0x10  # the value of `v`


def signed(number):
    """A number modulo 2^64 as an addend."""
    return (number + 2 ** 63) % 2 ** 64 - 2 ** 63


def entry_for(value, kind, offset, symbol="v", s=SYMBOL):
    """A relocation of the first section, at START, that computes this value."""
    place = START + offset if kind in RELATIVE else 0
    return Rel(1, offset, kind, symbol, signed(value - s + place))


def of_values(kind, values):
    """An object with one section of 8 bytes for each value, which is computed there."""
    entries = [entry_for(value, kind, 8 * k) for k, value in enumerate(values)]
    return build([Sec(".d", b"\xEE" * 8 * len(values), DATA)], [Sym("v", ABS, SYMBOL)], entries)


def fields_of(width, values):
    """The bytes of that section in the image."""
    return b"".join((value % 2 ** 64).to_bytes(8, "little")[:width] + b"\xEE" * (8 - width) for value in values)


def range_rows():
    """Each type at both ends of its range, and one past each."""
    body = NEAR + ".d : { *(.d) } }"
    for name, kind, width, least, greatest in RANGES:
        ends = [least, greatest, least + 1, greatest - 1]
        steps = [(script(body), accepted), (add("a.o", 0, of_values(kind, ends)), accepted),
                 (IMAGE, section(fields_of(width, ends)))]
        past = [least - 1, greatest + 1]
        if width < 8:
            lines = [f"F14 a.o .d {8 * k:016x} {kind} {value % 2 ** 64:016x}" for k, value in enumerate(past)]
            steps += [(replace("a.o", of_values(kind, past)), linked(1)), (FAULTS, text(*lines)), (IMAGE, text())]
        else:
            steps += [(replace("a.o", of_values(kind, past)), accepted), (FAULTS, text()),
                      (IMAGE, section(fields_of(width, past)))]
        steps += [(replace("a.o", of_values(kind, ends)), accepted), (IMAGE, section(fields_of(width, ends)))]
        yield Row(f"the range of {name}", steps)


def thousand_fields():
    """Eight bytes for each of 1,000 fields of all types, and the entries: values from all over the ranges."""
    chance, content, entries = random.Random(1), b"", []
    for k in range(1000):
        _, kind, width, least, greatest = RANGES[k % len(RANGES)]
        value = chance.choice([least, greatest, chance.randint(least, greatest)])
        spare = chance.randrange(9 - width)
        symbol, s = chance.choice([("v", SYMBOL), ("here", START), (0, 0)])
        entries.append(entry_for(value, kind, 8 * k + spare, symbol, s))
        content += b"\xEE" * spare + (value % 2 ** 64).to_bytes(8, "little")[:width] + b"\xEE" * (8 - spare - width)
    return content, entries


def order_rows():
    """A table of relocations in no order, in falling and in rising order: always the same image."""
    content, entries = thousand_fields()
    symbols = [Sym("here", 1, binding=LOCAL), Sym("v", ABS, SYMBOL)]
    mixed = list(entries)
    random.Random(2).shuffle(mixed)
    none = [Rel(1, offset, 0, "v", 1) for offset in (8000, 0, 3, 4001)]
    make = lambda table: build([Sec(".d", b"\xEE" * 8000, DATA)], symbols, table)
    yield Row("a thousand fields in no order", [
        (script(NEAR + ".d : { *(.d) } }"), accepted), (add("a.o", 0, make(none[:2] + mixed + none[2:])), accepted),
        (IMAGE, section(content)), (replace("a.o", make(entries)), accepted), (IMAGE, section(content))])
    yield Row("a thousand fields in falling order", [
        (script(NEAR + ".d : { *(.d) } }"), accepted), (add("a.o", 0, make(entries[::-1])), accepted),
        (IMAGE, section(content)), (script(f"SECTIONS {{ . = {START + 0x1000:#x}; .d : {{ *(.d) }} }}"), linked(1)),
        (script(NEAR + ".d : { *(.d) } }"), accepted), (IMAGE, section(content))])


# Contents without file bytes, gaps, data commands.

def nobits(name, size, alignment=1):
    return Sec(name, b"", DATA, elf.SHT_NOBITS, alignment, size)


def nobits_rows():
    """NOBITS and common blocks before, between and after pieces with bytes: zeros in the file."""
    parts = [Sec(".a", b"\1\2\3", DATA), nobits(".b", 5, 4), Sec(".c", b"\4", DATA, alignment=2), nobits(".z", 4)]
    given = build(parts, [Sym("c", COMMON, 8, 3)])
    rest = build([Sec(".a", b"", DATA), nobits(".b", 5, 4), Sec(".c", b"", DATA), nobits(".z", 4)])
    body = ".d : { *(.a) *(.b) *(.c) *(COMMON) *(.z) } =0xF1F2F3 }"
    inside = "01 02 03 F1" + "00" * 5 + "F1" + "04" + "F1 F2 F3 F1 F2" + "00" * 3 + "00" * 4
    yield Row("NOBITS between bytes", [
        (script(NEAR + body), accepted), (add("a.o", 0, given), linked(0, length(4096 + 23, [".d"], ["c"]))),
        (IMAGE, at({4096: inside, 96: word(23) + word(23)})),
        (replace("a.o", rest), linked(0, length(120, [".d"]))), (IMAGE, at({96: word(0) + word(9)})),
        (add("b.o", 1, build([Sec(".c", b"\x07", DATA)])), accepted),
        (IMAGE, at({4096: "00" * 5 + "07" + "00" * 4, 96: word(10) + word(10)}))])
    yield Row("NOBITS before and after bytes", [
        (script(NEAR + ".d : { *(.b) *(.a) *(.z) } .e : { *(.c) *(COMMON) } }"), accepted),
        (add("a.o", 0, given), accepted),
        (IMAGE, at({4096: "00" * 5 + "01 02 03" + "00" * 8 + "04" + "00" * 10, 96: word(27) + word(27)})),
        (script(NEAR + ".d : { *(.b) *(.z) } .e : { *(COMMON) *(.a .c) } }"), accepted),
        (IMAGE, at({56: "02 00", 96: word(0) + word(9)}))])


def gap(fill, size):
    """The bytes of a gap: those of the fill again and again, from its first one on."""
    return (fill * size)[:size]


def fill_rows():
    """Gaps before, between and after contents, of lengths that are no multiples of the fill's, and after edits."""
    for count in range(1, 9):
        fill = bytes(range(0xA1, 0xA1 + count))
        body = "{ . += 5; *(.a) BYTE(0x55) *(.e) *(.b) . = ALIGN(64); *(.c) . += 3; SHORT(0x6677) . += 11; }"
        parts = [Sec(".b", b"\x06\x07", DATA, alignment=16), Sec(".e", b"", DATA, alignment=4), nobits(".c", 2)]
        steps = [(script(NEAR + f".d : {body} =0x{fill.hex()} }}"), accepted), (add("b.o", 0, build(parts)), accepted)]
        for number, content in enumerate((b"\1\2\3", b"\1\2\3\4\5\6\7\x08", b"")):
            given = build([Sec(".a", content, DATA)])
            at_b = 16 if len(content) <= 10 else 32
            wanted = gap(fill, 5) + content + b"\x55" + gap(fill, at_b - 6 - len(content)) + b"\6\7"
            wanted += gap(fill, 64 - len(wanted)) + b"\0\0" + gap(fill, 3) + b"\x77\x66" + gap(fill, 11)
            steps += [(replace("a.o", given) if number else add("a.o", 0, given), accepted), (IMAGE, section(wanted))]
        steps += [(script(NEAR + f".d : {body} }}"), accepted), (IMAGE, section(bytes(5) + b"\x55" + bytes(10)))]
        yield Row(f"gaps with a fill of {count} bytes", steps)


def data_rows():
    """Data commands between pieces, with fields at their borders; their values follow an edit and are cut."""
    body = (".d : { *(.a) BYTE(0x1FF) *(.b) SHORT(. - 0x1000) LONG(0x123456789) *(.c) QUAD(x) QUAD(-2) "
            "BYTE(SIZEOF(.p)) } }")
    symbols = [Sym("v", ABS, SYMBOL, binding=LOCAL)]
    field = lambda name: build([Sec(name, b"\xEE" * 4, DATA)], symbols, [Rel(1, 0, 10, "v", 1)])
    steps = [(script("x = 0x1122334455667788; " + NEAR + ".p : { *(.p) } " + body), accepted)]
    steps += [(add(f"{name}.o", at_end, field("." + name)), accepted) for at_end, name in enumerate("bc")]
    eleven = "11 00 00 00"
    for number, size in enumerate((1, 4, 0x101)):
        given = build([Sec(".a", b"\xAA" * size, DATA), Sec(".p", b"\xBB" * 2, DATA)])
        before = 2 + size + 1 + 4
        wanted = ("BB BB" + "AA" * size + "FF" + eleven + word(before, 2) + "89 67 45 23" + eleven
                  + "88 77 66 55 44 33 22 11" + "FE" + "FF" * 7 + "02")
        steps += [(replace("a.o", given) if number else add("a.o", 0, given), accepted), (IMAGE, at({4096: wanted}))]
    yield Row("data commands between pieces", steps)


# Faults of relocation.

def fault_rows():
    """Undefined targets, targets that aren't in the output, and the entry symbol's."""
    body = NEAR + ".d : { *(.d) } %s }"
    discard = body % "/DISCARD/ : { *(.x) *(COMMON) }"
    both = build([Sec(".d", bytes(16), DATA)], [Sym("u"), Sym("u", binding=WEAK)],
                 [Rel(1, 8, 1, 2, 7), Rel(1, 0, 1, 1, 7)])
    yield Row("undefined for one entry, 0 for the weak one", [
        (script(body % ""), accepted), (add("a.o", 0, both), linked(1)),
        (FAULTS, text("F12 a.o .d 0000000000000000 u")),
        (add("b.o", 0, build([], [Sym("u", ABS, 1, binding=WEAK)])), accepted),
        (IMAGE, at({4096: word(8) + word(8)})), (remove("b.o"), linked(1)),
        (FAULTS, text("F12 a.o .d 0000000000000000 u"))], status=1)
    away = [Sec(".d", bytes(32), DATA), Sec(".x", bytes(4), DATA)]
    names = [Sym("l", 2, binding=LOCAL), Sym("g", 2), Sym("c", COMMON, 4, 4)]
    table = [Rel(1, 24, 1, "c"), Rel(1, 0, 1, "l"), Rel(1, 16, 10, 0, -1), Rel(1, 8, 1, "g")]
    lines = ["F13 a.o .d 0000000000000018 3", "F13 a.o .d 0000000000000000 1",
             "F14 a.o .d 0000000000000010 10 ffffffffffffffff", "F13 a.o .d 0000000000000008 2"]
    weak = build([Sec(".d", bytes(8), DATA)], [Sym("g", binding=WEAK)], [Rel(1, 0, 1, "g")])
    yield Row("targets that are discarded", [
        (script(discard), accepted), (add("a.o", 0, build(away, names, table)), linked(1)), (FAULTS, text(*lines)),
        (add("b.o", 0, weak), linked(1)), (FAULTS, text("F13 b.o .d 0000000000000000 1", *lines)),
        (replace("a.o", build(away, names, table[:2] + table[3:])), linked(1)),
        (script(NEAR + ".d : { *(.d) } .x : { *(.x) *(COMMON) } }"), accepted), (FAULTS, text()),
        (IMAGE, at({4096: word(0x1028) + word(0x1028) + word(0x1028) + word(0) + word(0x102C), 4136: "00" * 4}))])
    yield Row("faults by their place in the table", [
        (script(discard), accepted), (add("b.o", 0, mixed_faults()), linked(1)),
        (add("a.o", 1, mixed_faults()), linked(1)),
        (FAULTS, text(*mixed_lines("b.o"), *mixed_lines("a.o"))), (move("a.o", 0), linked(1)),
        (FAULTS, text(*mixed_lines("a.o"), *mixed_lines("b.o")))], status=1)
    yield from entry_rows(body, discard)


def mixed_faults():
    """An object with faults of each kind, in two sections, by tables in no order."""
    symbols = [Sym("u"), Sym("l", 3, binding=LOCAL)]
    return build([Sec(".d", bytes(8), DATA), Sec(".d", bytes(12), READ_ONLY), Sec(".x", b"\0", DATA)], symbols,
                 [Rel(1, 4, 10, "u"), Rel(1, 0, 12, 0, 0x10000),
                  Rel(2, 8, 14, 0, -129), Rel(2, 10, 14, 0, -128), Rel(2, 0, 10, "l"), Rel(2, 4, 11, "u")])


def mixed_lines(name):
    return [f"F12 {name} .d 0000000000000004 u", f"F14 {name} .d 0000000000000000 12 0000000000010000",
            f"F14 {name} .d 0000000000000008 14 ffffffffffffff7f", f"F13 {name} .d 0000000000000000 1",
            f"F12 {name} .d 0000000000000004 u"]


def entry_rows(body, discard):
    """F13 for the entry symbol, before all other faults of relocation, and gone after an edit."""
    sections = [Sec(".d", b"\xC3" * 4, CODE), Sec(".x", b"\x90" * 4, CODE)]
    given = build(sections, [Sym("e", 2, 1)], [Rel(1, 0, 12, 0, 0x10000), Rel(2, 0, 12, 0, 0x10000)])
    good = build(sections, [Sym("e", 2, 1)])
    taken_body = body % ".x : { *(.x) }"
    taken = script(taken_body)
    yield Row("an entry symbol that is discarded", [
        (script("ENTRY(e) " + discard), linked(1)), (FAULTS, text("F2 e")), (add("a.o", 0, given), linked(1)),
        (FAULTS, text("F13 entry", "F14 a.o .d 0000000000000000 12 0000000000010000")),
        (replace("a.o", good), linked(1)), (FAULTS, text("F13 entry")), (IMAGE, text()), (MAP, text()),
        (script("ENTRY(e) " + taken_body), accepted), (MAP, has_lines("entry 0000000000001005")),
        (IMAGE, at({24: word(0x1005), 4096: "C3" * 4 + "90" * 4})), (script("ENTRY(e) " + discard), linked(1)),
        (script(discard), accepted), (IMAGE, at({24: word(0), 4096: "C3" * 4}))])
    weak = build(sections, [Sym("e", 2, 1, binding=WEAK)])
    for title, options in (("by an option", Options(entry="e")), ("under collection", Options(gc=True, entry="e"))):
        steps = [(script(discard), linked(1)), (add("a.o", 0, weak), linked(1)), (FAULTS, text("F13 entry")),
                 (taken, accepted), (FAULTS, text()), (IMAGE, at({24: word(0x1001 if options.gc else 0x1005)})),
                 (add("b.o", 1, build([Sec(".d", b"\xCC", CODE)], [Sym("e", 1)])), accepted),
                 (IMAGE, at({24: word(0x1000 if options.gc else 0x1004)})), (script(discard), accepted),
                 (remove("b.o"), linked(1)), (FAULTS, text("F13 entry"))]
        yield Row(f"an entry symbol that is discarded, {title}", steps, options, 1)
    block = build([Sec(".d", b"\xC3", CODE)], [Sym("e", COMMON, 8, 4)])
    unlinked = build([Sec(".d", b"\xC3", CODE), Sec(".debug", b"\0", 0), Sec(".none", b"", CODE)], [Sym("e", 2)])
    empty = build([Sec(".d", b"\xC3", CODE), Sec(".none", b"", CODE)], [Sym("e", 2)])
    yield Row("an entry symbol in a common block, outside the output and in an empty section", [
        (script("ENTRY(e) " + discard), linked(1)), (add("a.o", 0, block), linked(1)), (FAULTS, text("F13 entry")),
        (replace("a.o", unlinked), linked(1)), (FAULTS, text("F13 entry")),
        (replace("a.o", empty), linked(1)), (FAULTS, text("F13 entry")),
        (replace("a.o", build([Sec(".d", b"\xC3", CODE)], [Sym("e", ABS, 7)])), accepted), (IMAGE, at({24: word(7)}))])


# Tails.

def header(name, kind, flags, address, offset, size, link, info, alignment, entry):
    return struct.pack("<IIQQQQIIQQ", name, kind, flags, address, offset, size, link, info, alignment, entry)


def symbol(name, info, number, value, size):
    return struct.pack("<IBBHQQ", name, info, 0, number, value, size)


def tail_rows():
    """Images whose tails the rules state, from the end of their segments to their ends."""
    yield Row("the tail of the empty project", [
        (IMAGE, whole(64, bytes(24) + b"\0" + b"\0.symtab\0.strtab\0.shstrtab\0" + bytes(4) + bytes(64)
                      + header(1, 2, 0, 0, 64, 24, 2, 1, 8, 24) + header(9, 3, 0, 0, 88, 1, 0, 0, 1, 0)
                      + header(17, 3, 0, 0, 89, 27, 0, 0, 1, 0)))])
    start = "SECTIONS { . = 0x401000; .text : { *(.text) } }"
    yield Row("the tail of the smallest program", [
        (script(start), accepted), (add("a.o", 0, object_a()), linked(0, 4488)),
        (IMAGE, whole(4096, b"\x90\x90\x90\xC3" + bytes(4) + bytes(24) + b"\0"
                      + b"\0.text\0.symtab\0.strtab\0.shstrtab\0" + bytes(6) + bytes(64)
                      + header(1, 1, 6, 0x401000, 4096, 4, 0, 0, 1, 0) + header(7, 2, 0, 0, 4104, 24, 3, 1, 8, 24)
                      + header(15, 3, 0, 0, 4128, 1, 0, 0, 1, 0) + header(23, 3, 0, 0, 4129, 33, 0, 0, 1, 0)))])
    yield Row("the tail of a common block", [
        (script("SECTIONS { . = 0x404004; .bss : { *(COMMON) } }"), accepted),
        (add("a.o", 0, build([], [Sym("buf", COMMON, 8, 4)])), accepted),
        (add("b.o", 1, build([], [Sym("buf", COMMON, 4, 16)])), linked(0, 528)),
        (IMAGE, whole(120, bytes(24) + symbol(1, 0x11, 1, 0x404008, 16) + b"\0buf\0"
                      + b"\0.bss\0.symtab\0.strtab\0.shstrtab\0" + bytes(3) + bytes(64)
                      + header(1, 8, 3, 0x404008, 0x1008, 16, 0, 0, 8, 0) + header(6, 2, 0, 0, 120, 48, 3, 1, 8, 24)
                      + header(14, 3, 0, 0, 168, 5, 0, 0, 1, 0) + header(22, 3, 0, 0, 173, 32, 0, 0, 1, 0)))])
    three = "SECTIONS { . = 0x401000; .text : { a.o(.text) b.o(.text) c.o(.text) } }"
    weak = build([Sec(".text", b"\x90" * 4)], [Sym("w", 1, 0, 4, WEAK, elf.STT_FUNC)])
    call = build([Sec(".text", bytes.fromhex("E800000000"))], [Sym("w")], [Rel(1, 1, 4, "w", -4)])
    yield Row("the tail of a weak symbol before and after a move", [
        (script(three), accepted), (add("a.o", 0, weak), accepted), (add("b.o", 1, weak), accepted),
        (add("c.o", 2, call), linked(0, 4520)), (IMAGE, whole(4096, weak_image(0x401000, "F3"))),
        (move("b.o", 0), linked(0, 4520)), (IMAGE, whole(4096, weak_image(0x401004, "F7")))])
    program = build([Sec(".text", b"\x90\x90\xC3", alignment=16)], [Sym("_start", 1, 0, 3, kind=elf.STT_FUNC)])
    yield Row("the headers and the tail of one section and one symbol", [
        (script("ENTRY(_start) " + start), linked(1)), (add("a.o", 0, program), linked(0, 0x1068 + 320)),
        (IMAGE, at({24: word(0x401000) + word(64) + word(0x1068), 56: "01 00", 120: "00" * (4096 - 120)})),
        (IMAGE, whole(0x1003, bytes(5) + bytes(24) + symbol(1, 0x12, 1, 0x401000, 3) + b"\0_start\0"
                      + b"\0.text\0.symtab\0.strtab\0.shstrtab\0" + bytes(7) + bytes(64)
                      + header(1, 1, 6, 0x401000, 0x1000, 3, 0, 0, 16, 0) + header(7, 2, 0, 0, 0x1008, 48, 3, 1, 8, 24)
                      + header(15, 3, 0, 0, 0x1038, 8, 0, 0, 1, 0) + header(23, 3, 0, 0, 0x1040, 33, 0, 0, 1, 0)))])


def weak_image(value, field):
    """That image from its section on: `w` at this address, called by a field with this low byte."""
    return (b"\x90" * 8 + bytes.fromhex(f"E8 {field} FF FF FF") + bytes(3) + bytes(24) + symbol(1, 0x22, 1, value, 4)
            + b"\0w\0" + b"\0.text\0.symtab\0.strtab\0.shstrtab\0" + bytes(4) + bytes(64)
            + header(1, 1, 6, 0x401000, 4096, 13, 0, 0, 1, 0) + header(7, 2, 0, 0, 4112, 48, 3, 1, 8, 24)
            + header(15, 3, 0, 0, 4160, 3, 0, 0, 1, 0) + header(23, 3, 0, 0, 4163, 33, 0, 0, 1, 0))


def all_rows(worked_rows):
    """Every row for images; the worked rows are those of which some are taken again."""
    yield from worked_images(worked_rows)
    for group in (range_rows, order_rows, nobits_rows, fill_rows, data_rows, fault_rows, tail_rows):
        yield from group()
