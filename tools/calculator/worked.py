"""Worked rows: small links whose answers were worked out by hand, with every table of the rules.

    tools/model-rows             runs them and prints how many cases agree
    tools/model-rows FOLDER      also stores each stream with its answers there
"""
import itertools
import os
import subprocess
import sys
import tempfile

from . import choices, edge_rows, elf, image_rows, objects, patterns, program_rows, relocation, rows
from .build import DATA, Rel, Sec, Sym, build, changed, object_a, object_b
from .edits import Options
from .rows import (FAULTS, IMAGE, MAP, Result, Row, add, at, has_lines, lacks, length, linked, move, refused, remove,
                   replace, script, text)

WEAK, GLOBAL, LOCAL = elf.STB_WEAK, elf.STB_GLOBAL, elf.STB_LOCAL
ABS, COMMON = elf.SHN_ABS, elf.SHN_COMMON
A, B = object_a(), object_b()
T = "SECTIONS { . = 0x401000; .text : { *(.text) } }"
LATER = " .text : { *(.text) } }"
ONE = length(4100, [".text"])


def code(size, *symbols, name=".text"):
    """An object with one section of code of that size and some symbols."""
    return build([Sec(name, b"\x90" * size)], symbols)


def data(*contents):
    """An object of data sections: (name, hexadecimal content, alignment)."""
    return build([Sec(name, bytes.fromhex(content), DATA, alignment=least) for name, content, least in contents])


def body(inside, start="0x1000"):
    """A script with one output section `.d` of that body."""
    return f"SECTIONS {{ . = {start}; .d : {{ {inside} }} }}"


def once(title, text_of_script, given, *steps, options=Options(), status=0):
    """A row that sets a script, adds objects (name, bytes) in order, and then takes its steps."""
    start = [(script(text_of_script), anything)]
    start += [(add(name, number, content), anything) for number, (name, content) in enumerate(given)]
    return Row(title, start + list(steps), options, status)


def anything(answer):
    """An edit that is accepted, with or without faults."""
    return answer.startswith(b"linked")


class Differences:
    """Compares two images of one length byte by byte."""

    def first(self, answer):
        self.image = answer[answer.index(b"\n") + 1:]
        return True

    def only(self, *offsets):
        """A check that just these bytes differ."""
        def check(answer):
            second = answer[answer.index(b"\n") + 1:]
            return {at for at, pair in enumerate(zip(self.image, second)) if pair[0] != pair[1]} == set(offsets)
        return check


def first_rows():
    """The empty project, the smallest program, and two fields."""
    yield Row("empty project", [
        (IMAGE, lambda answer: answer.startswith(b"bytes 376\n")),
        (IMAGE, at({0: "7F 45 4C 46 02 01 01 00" + "00" * 8, 16: "02 00 3E 00 01 00 00 00", 24: "00" * 16,
                    40: "78" + "00" * 7, 48: "00" * 4, 52: "40 00 38 00 00 00 40 00 04 00 03 00",
                    64: "00" * 24})),
        (MAP, text("entry 0000000000000000")), (FAULTS, text())])
    yield Row("smallest program", [
        (script(T), linked(0, length(64, [".text"]))), (add("a.o", 0, A), linked(0, 4488)),
        (MAP, text("entry 0000000000000000",
                   "section .text 0000000000401000 0000000000401000 0000000000000004 r-x",
                   "piece 0000000000401000 0000000000000004 a.o .text")),
        (IMAGE, at({24: "00" * 8 + "40" + "00" * 7, 56: "01 00",
                    64: "01 00 00 00 05 00 00 00 00 10 00 00 00 00 00 00 00 10 40 00 00 00 00 00 00 10 40 00 00 00 00"
                        "00"
                        "04 00 00 00 00 00 00 00 04 00 00 00 00 00 00 00 00 10 00 00 00 00 00 00",
                    4096: "90 90 90 C3", 40: "48 10", 58: "40 00 05 00 04 00",
                    4168 + 64: "01 00 00 00", 4168 + 128: "07 00 00 00", 4168 + 192: "0F 00 00 00",
                    4168 + 256: "17 00 00 00"}))])
    symbol = Sym("v", ABS, 0x80000000)
    for title, binding in (("local", LOCAL), ("global", GLOBAL)):
        symbol = Sym("v", ABS, 0x80000000, binding=binding)
        good = build([Sec(".data", bytes(8), DATA)], [symbol], [Rel(1, 0, 10, "v")])
        bad = build([Sec(".data", bytes(8), DATA)], [symbol], [Rel(1, 0, 10, "v"), Rel(1, 4, 11, "v")])
        names = ["v"] * (binding == GLOBAL)
        yield Row(f"absolute fields, {title}", [
            (script("SECTIONS { .data : { *(.data) } }"), linked(0, length(64, [".data"]))),
            (add("a.o", 0, good), linked(0, length(4104, [".data"], names))), (IMAGE, at({4096: "00 00 00 80"})),
            (replace("a.o", bad), linked(1)), (FAULTS, text("F14 a.o .data 0000000000000004 11 0000000080000000")),
            (IMAGE, text()), (MAP, text())], status=1)


def name_rows():
    """Duplicates, commons, PROVIDE, weak definitions."""
    f = Sym("f", 1)
    yield Row("duplicate name", [
        (script(T), anything), (add("a.o", 0, code(4, f)), anything), (add("b.o", 1, code(4)), anything),
        (add("c.o", 2, code(4, f)), linked(1)), (FAULTS, text("F1 f c.o a.o")), (IMAGE, text()), (MAP, text()),
        (remove("a.o"), linked(0, length(4104, [".text"], ["f"])))])
    weak = code(4, Sym("f", 1, binding=WEAK))
    yield once("duplicate of the script", "f = 1; " + T, [("a.o", code(4, f)), ("b.o", weak)],
               (FAULTS, text("F1 f a.o script")), status=1)
    commons = [("a.o", build([], [Sym("buf", COMMON, 8, 4)])), ("b.o", build([], [Sym("buf", COMMON, 4, 16)]))]
    yield once("commons", "SECTIONS { . = 0x404004; .bss : { *(COMMON) } }", commons,
               (MAP, text("entry 0000000000000000",
                          "section .bss 0000000000404008 0000000000404008 0000000000000010 rw-",
                          "piece 0000000000404008 0000000000000010 a.o COMMON", "symbol 0000000000404008 buf a.o")),
               (IMAGE, lambda answer: answer.startswith(b"bytes 528\n")),
               (IMAGE, at({64: "01 00 00 00 06 00 00 00 08 10 00 00 00 00 00 00 08 40 40 00 00 00 00 00",
                           96: "00" * 8 + "10" + "00" * 7,
                           120 + 24: "01 00 00 00 11 00 01 00 08 40 40 00 00 00 00 00 10 00 00 00 00 00 00 00",
                           208 + 64: "01 00 00 00 08 00 00 00 03" + "00" * 7 + "08 40 40 00 00 00 00 00"
                                     "08 10 00 00 00 00 00 00 10 00 00 00 00 00 00 00 00 00 00 00 00 00 00 00 08"})))
    provide = "SECTIONS { . = 0x500000; PROVIDE(end = .); .bss : { *(COMMON) } }"
    yield Row("provide comes and goes", [
        (script(provide), linked(0, length(64, [".bss"]))), (MAP, lacks("symbol")),
        (add("a.o", 0, build([], [Sym("end")])), linked(0, length(64, [".bss"], ["end"]))),
        (MAP, has_lines("symbol 0000000000500000 end script")),
        (add("b.o", 1, build([], [Sym("end", COMMON, 1, 4)])), anything),
        (MAP, has_lines("symbol 0000000000500000 end b.o")), (remove("b.o"), anything),
        (MAP, has_lines("symbol 0000000000500000 end script")), (remove("a.o"), anything), (MAP, lacks("symbol"))])
    three = "SECTIONS { . = 0x401000; .text : { a.o(.text) b.o(.text) c.o(.text) } }"
    weak = code(4, Sym("w", 1, 0, 4, WEAK, elf.STT_FUNC))
    call = build([Sec(".text", bytes.fromhex("E800000000"))], [Sym("w")], [Rel(1, 1, 4, "w", -4)])
    symbol = "01 00 00 00 22 00 01 00"
    differences = Differences()
    yield once("first weak by order", three, [("a.o", weak), ("b.o", weak), ("c.o", call)],
               (IMAGE, lambda answer: answer.startswith(b"bytes 4520\n")),
               (IMAGE, at({4104: "E8 F3 FF FF FF", 4136: symbol, 4144: "00 10 40 00", 4152: "04"})),
               (IMAGE, differences.first), (move("b.o", 0), linked(0, 4520)), (IMAGE, differences.only(0x1009, 4144)),
               (IMAGE, at({4104: "E8 F7 FF FF FF", 4136: symbol, 4144: "04 10 40 00", 4152: "04"})))
    yield from call_rows()


def call_rows():
    """What a call of `w` finds, by the objects and the script before it."""
    yield once("nothing defines it", T, [("c.o", B)], (FAULTS, text("F12 c.o .text 0000000000000001 w")), status=1)
    yield once("a weak reference", T, [("c.o", changed(B, {116: 0x20}))],
               (IMAGE, at({4097: "FB EF BF FF"})), (MAP, lacks("symbol")))
    for before in ("w = 0x401010; ", "PROVIDE(w = 0x401010); "):
        yield once("the script defines it: " + before, before + T, [("c.o", B)], (IMAGE, at({4097: "0B 00 00 00"})))
    weak, strong = code(4, Sym("w", 1, binding=WEAK)), code(4, Sym("w", 1))
    yield once("two weak ones", T, [("a.o", weak), ("b.o", weak), ("c.o", B)], (IMAGE, at({4105: "F3 FF FF FF"})),
               (IMAGE, lambda answer: answer.startswith(b"bytes %d\n" % length(4109, [".text"], ["w"]))))
    yield once("a strong one", T, [("a.o", weak), ("b.o", strong), ("c.o", B)], (IMAGE, at({4105: "F7 FF FF FF"})))
    yield once("the entry symbol", "ENTRY(w) " + T, [("a.o", weak), ("b.o", strong), ("c.o", B)],
               (IMAGE, at({24: "04 10 40 00 00 00 00 00"})), (MAP, has_lines("entry 0000000000401004")))
    yield once("a common that nothing takes", T, [("a.o", build([], [Sym("w", COMMON, 4, 4)])), ("c.o", B)],
               (FAULTS, text("F3 a.o COMMON")), status=1)
    yield Row("an entry symbol that nothing defines", [(script(T), linked(1)), (FAULTS, text("F2 nope"))],
              Options(entry="nope"), 1)
    yield Row("the entry symbol of an empty stream", [], Options(entry="nope"), 1)
    for binding, wanted in ((WEAK, None), (GLOBAL, "F12 a.o .data 0000000000000000 x")):
        given = build([Sec(".data", bytes(8), DATA)], [Sym("x", binding=binding)], [Rel(1, 0, 1, "x")])
        last = (FAULTS, text(wanted)) if wanted else (IMAGE, at({4096: "00" * 8}))
        yield once("an undefined name", "SECTIONS { .data : { *(.data) } }", [("a.o", given)], last,
                   status=1 if wanted else 0)


def gathering_rows():
    """Words and statements, garbage collection, sorts, exclusions."""
    two = [("a.o", data((".a", "01", 1), (".b", "02", 1))), ("b.o", data((".a", "03", 1), (".b", "04", 1)))]
    yield once("two words", body("*(.a .b)"), two, (IMAGE, at({4096: "01 02 03 04"})))
    yield once("two statements", body("*(.a) *(.b)"), two, (IMAGE, at({4096: "01 03 02 04"})))
    three = [(name, data((".a", content, 1))) for name, content in (("a.o", "01"), ("b.o", "02"), ("c.o", "03"))]
    yield once("an excluded file", body("*(EXCLUDE_FILE(b*.o) .a) *(.a)"), three, (IMAGE, at({4096: "01 03 02"})))
    yield once("an exclusion for one word", body("*(EXCLUDE_FILE(b.o) .a .b) *(.a)"), two,
               (IMAGE, at({4096: "01 02 04 03"})))
    yield once("an excluded orphan", body("*(EXCLUDE_FILE(b.o) .a .b)"), two, (FAULTS, text("F3 b.o .a")), status=1)
    by_alignment = data((".a", "01", 1), (".b", "02", 4), (".c", "03", 4))
    yield once("by alignment", body("*(SORT_BY_ALIGNMENT(.a .b .c))"), [("a.o", by_alignment)],
               (IMAGE, at({4096: "02 00 00 00 03 01"})))
    by_name = data((".c", "01", 1), (".a", "02", 1), (".b", "03", 1))
    for sort in ("SORT", "SORT_BY_NAME"):
        yield once("by name", body(f"*({sort}(.[a-c]))"), [("a.o", by_name)], (IMAGE, at({4096: "02 03 01"})))
    yield from collected_rows()
    yield Row("an orphan", [(add("a.o", 0, A), linked(1)), (FAULTS, text("F3 a.o .text"))], status=1)
    yield Row("a discarded orphan", [(add("a.o", 0, A), linked(0, 376))], Options(orphans="discard"))


def calls(*names):
    """`_start` of 10 bytes, which calls two names."""
    symbols = [Sym("_start", 1)] + [Sym(name) for name in sorted(set(names))]
    return build([Sec(".text", bytes.fromhex("E800000000E800000000"))], symbols,
                 [Rel(1, 1, 4, names[0], -4), Rel(1, 6, 4, names[1], -4)])


COLLECTED = "SECTIONS { . = 0x401000; .text : { *(.text) *(.text.*) } }"
B_F, C_G = code(16, Sym("f", 1), name=".text.f"), code(1, Sym("g", 1), name=".text.g")


def state(text_of_script, options):
    """`_start` that calls f and g, each in a section of its own."""
    return [(script(text_of_script), anything), (add("a.o", 0, calls("f", "g")), anything),
            (add("b.o", 1, B_F), anything),
            (add("c.o", 2, C_G), linked(0, length(4123, [".text"], ["_start", "f", "g"])))]


def collected_rows():
    """Garbage collection before and after edits."""
    options = Options(gc=True)
    both, only_g = ["_start", "f", "g"], ["_start", "g"]
    yield Row("collected", state("ENTRY(_start) " + COLLECTED, options) + [
        (replace("a.o", calls("g", "g")), linked(0, length(4107, [".text"], only_g))),
        (IMAGE, at({4097: "05 00 00 00", 4102: "00 00 00 00"})),
        (MAP, has_lines("symbol 0000000000401000 _start a.o", "symbol ---------------- f b.o",
                        "symbol 000000000040100a g c.o")),
        (remove("b.o"), linked(0, length(4107, [".text"], only_g)))], options)
    keep = "ENTRY(_start) SECTIONS { . = 0x401000; .text : { *(.text) KEEP(*(.text.f)) *(.text.*) } }"
    yield once("kept", keep, [("a.o", calls("g", "g")), ("b.o", B_F), ("c.o", C_G)],
               (IMAGE, lambda answer: answer.startswith(b"bytes %d\n" % length(4123, [".text"], both))),
               (IMAGE, at({4097: "15 00 00 00", 4102: "10 00 00 00"})), options=options)
    options = Options(gc=True, entry="_start")
    table = [
        (replace("a.o", calls("g", "g")), linked(0, length(4107, [".text"], only_g)), [], 0),
        (add("d.o", 3, A), linked(0, length(4123, [".text"], both)), [], 0),
        (move("c.o", 0), linked(0, length(4123, [".text"], both)),
         [(IMAGE, at({4097: "06 00 00 00", 4102: "00 00 00 00"}))], 0),
        (remove("b.o"), linked(1), [(FAULTS, text("F12 a.o .text 0000000000000001 f"))], 1),
        (script(T), linked(1), [(FAULTS, text("F3 b.o .text.f", "F3 c.o .text.g"))], 1)]
    for number, (edit, answer, more, status) in enumerate(table, 1):
        steps = state(COLLECTED, options) + [(edit, answer)] + more
        yield Row(f"from one state, edit {number}", steps, options, status)


def layout_rows():
    """Regions, load addresses, going back, overlaps, gaps, statements in bodies."""
    region = "MEMORY { r : ORIGIN = 0x1000, LENGTH = 8 } SECTIONS { .d : { *(.d) } >r }"
    eight, nine = data((".d", "00" * 8, 1)), data((".d", "00" * 9, 1))
    yield Row("a full region", [(script(region), anything), (add("a.o", 0, eight), linked(0, length(4104, [".d"]))),
                                (replace("a.o", nine), linked(1)), (FAULTS, text("F7 .d r"))], status=1)
    yield from load_rows()
    both = [("a.o", data((".d", "00" * 8, 1), (".e", "00" * 8, 1)))]
    yield once("going back in a section", "SECTIONS { .d : { *(.d) . = 4; } /DISCARD/ : { *(.e) } }", both,
               (FAULTS, text("F6 1")), status=1)
    apart = "SECTIONS { . = 0x2000; .d : { *(.d) } . = %s; .e : { *(.e) } }"
    yield once("going back outside", apart % "0x1000", both,
               (IMAGE, lambda answer: answer.startswith(b"bytes %d\n" % length(8200, [".d", ".e"]))),
               (IMAGE, at({72: "00 20 00 00 00 00 00 00 00 10", 128: "00 10 00 00 00 00 00 00 00 20"})))
    yield once("sections that meet", apart % "0x2004", both, (FAULTS, text("F9 .e .d", "F10 .e .d")), status=1)
    fill = "SECTIONS { . = 0x1000; .d : { *(.d) . = ALIGN(8); } =0x9091 }"
    yield once("a fill", fill, [("a.o", data((".d", "010203", 1)))], (IMAGE, at({4096: "01 02 03 90 91 90 91 90"})))
    statements = "SECTIONS { . = 0x1000; "
    yield Row("data commands", [
        (script(statements + ".d : { BYTE(0x101) SHORT(. - 0x1000) } }"), linked(0, length(4099, [".d"]))),
        (IMAGE, at({4096: "01 01 00"})), (script(statements + ".d : { LONG(SIZEOF(.d)) } }"), linked(1)),
        (FAULTS, text("F4 1 .d")), (script(statements + ".d : { . += 8; } }"), linked(0, length(120, [".d"]))),
        (IMAGE, at({68: "06 00 00 00", 96: "00" * 8 + "08" + "00" * 7}))])
    given = statements + ".d 0x1002 : ALIGN(8) { *(.d) } }"
    yield once("an address as given", given, [("a.o", data((".d", "010203", 1)))],
               (IMAGE, lambda answer: answer.startswith(b"bytes %d\n" % length(4101, [".d"]))),
               (MAP, has_lines("section .d 0000000000001002 0000000000001002 0000000000000003 rw-")))
    for start, end in (("0x401000", 4100), ("0x401001", 4101), ("0x4010C8", 204), ("0xFFFFFFFFFFFFFFFB", 4095),
                       ("0xFFFFFFFFFFFFFFFC", None)):
        given = T.replace("0x401000", start)
        yield Row("starts at " + start, [
            (script(given), anything),
            (add("a.o", 0, A), linked(1) if end is None else linked(0, length(end, [".text"])))]
            + ([(FAULTS, text("F8 1"))] if end is None else [(IMAGE, at({72: elf.spell(end - 4, 8).hex()}))]),
            status=int(end is None))


def load_rows():
    """Code and data in one region, data at work in another."""
    text_of_script = ("MEMORY { rom : ORIGIN = 0x8000, LENGTH = 4K ram : ORIGIN = 0x20000, LENGTH = 4K } SECTIONS { "
                      ".text : { *(.text) } >rom .data : { *(.data) } >ram AT>rom .bss : { *(.bss) } >ram }")
    given = [("a.o", code(6)), ("b.o", build([Sec(".data", bytes(8), DATA, alignment=4)])),
             ("c.o", build([Sec(".bss", b"", DATA, elf.SHT_NOBITS, 8, 16)]))]
    names = [".text", ".data", ".bss"]
    yield once("load addresses", text_of_script, given,
               (IMAGE, lambda answer: answer.startswith(b"bytes %d\n" % length(8200, names))),
               (MAP, has_lines("section .data 0000000000020000 0000000000008008 0000000000000008 rw-")),
               (MAP, has_lines("section .bss 0000000000020008 0000000000008010 0000000000000010 rw-")),
               (IMAGE, at({128: "00 20 00 00 00 00 00 00 00 00 02 00 00 00 00 00 08 80 00 00 00 00 00 00"
                                "08 00 00 00 00 00 00 00 18 00 00 00 00 00 00 00"})),
               (replace("a.o", code(10)), linked(0, length(8200, names))),
               (MAP, has_lines("section .data 0000000000020000 000000000000800c 0000000000000008 rw-")),
               (MAP, has_lines("section .bss 0000000000020008 0000000000008014 0000000000000010 rw-")))
    apart = "SECTIONS { . = 0x401000; .text : { *(.text) } . = 0x402000; .data : { *(.data) } }"
    yield Row("layout again", [
        (script(apart), anything), (add("a.o", 0, A), anything),
        (add("b.o", 1, data((".data", "00" * 8, 1))), linked(0, length(8200, names[:2]))),
        (replace("b.o", data((".data", "00" * 12, 1))), linked(0, length(8204, names[:2]))),
        (replace("a.o", code(8)), linked(0, length(8204, names[:2])))])
    moved = "SECTIONS { . = 0x401000; .text : { c.o(.text) a.o(.text) b.o(.text) } }"
    yield Row("a call moves", [
        (script(moved), anything), (add("c.o", 0, B), anything), (add("a.o", 1, A), anything),
        (add("b.o", 2, code(4, Sym("w", 1))), linked(0, length(4109, [".text"], ["w"]))),
        (IMAGE, at({4097: "04 00 00 00"})), (replace("a.o", code(16)), linked(0, length(4121, [".text"], ["w"]))),
        (IMAGE, at({4097: "10 00 00 00"}))])


def expression_rows():
    """Values, their faults, ASSERT."""
    for start, end in (("SECTIONS { . = 0x401000 + ALIGN(3, 4) * 2;", 4108),
                       ("base = 0x400000; SECTIONS { . = base | 1 << 12;", 4100), ("SECTIONS { . = 0 && 1 / 0;", 4100),
                       ("a-b = 0x401000; SECTIONS { . = a-b;", 4100)):
        names = [name for name in ("base", "a-b") if start.startswith(name)]
        yield once(start, start + LATER, [], (add("a.o", 0, A), linked(0, length(end, [".text"], names))))
    for start, fault in (("SECTIONS { . = 1 / 0;", "F5 1"), ("SECTIONS { . = ~0 - 3;", "F8 1")):
        yield once(start, start + LATER, [], (add("a.o", 0, A), linked(1)), (FAULTS, text(fault)), status=1)
    late = "SECTIONS { . = late; .text : { *(.text) } late = 1; }"
    yield once("a name that comes later", late, [], (FAULTS, text("F4 1 late")), status=1)
    yield once("an ASSERT", T + ' ASSERT(SIZEOF(.text) <= 3, "text too big")', [("a.o", A)],
               (FAULTS, text("F15 1 text too big")), status=1)
    yield once("an ASSERT that holds", 'ASSERT(SIZEOF(.text) == 4 && (1 || nope), "x") ' + T, [("a.o", A)],
               (IMAGE, lambda answer: answer.startswith(b"bytes %d\n" % ONE)))
    yield once("ENTRY alone", "ENTRY(f) SECTIONS { }", [], (FAULTS, text("F2 f")), status=1)


def edit_rows():
    """Refused edits change nothing."""
    start = [(script(T), anything), (add("a.o", 0, A), linked(0, ONE))]
    yield Row("a cut object", start + [
        step for n in range(280) for step in ((add("b.o", 1, A[:n]), refused(4, 1 if n < 64 else 4)),)] + [
        (IMAGE, lambda answer: answer.startswith(b"bytes %d\n" % ONE))])
    yield Row("a cut object with symbols", [(add("b.o", 0, B[:n]), refused(4, 1 if n < 64 else 4)) for n in range(480)])
    yield Row("refused edits", start + [
        (add("a.o", 0, A), refused(1)), (add("a.o", 9, b""), refused(1)), (move("a.o", 1), refused(3)),
        (remove("z.o"), refused(2)), (replace("z.o", b""), refused(2)), (move("z.o", 9), refused(2)),
        (add("n" * 256, 0, b""), refused(6)), (add("n" * 256, 9, b""), refused(3)), (add("b.o", 1, b""), refused(4, 1)),
        (add("b.o", 2 ** 64 - 1, b""), refused(3)), (IMAGE, lambda answer: answer.startswith(b"bytes %d\n" % ONE))])
    yield Row("replaced by itself", start + [(replace("a.o", A), linked(0, ONE)), (add("b.o", 0, A), anything),
                                             (move("b.o", 0), anything), (remove("b.o"), linked(0, ONE))])
    shared = build([Sec(".data", bytes(8), DATA)], [Sym("v", ABS)], [Rel(1, 0, 10, "v"), Rel(1, 3, 14, "v")])
    yield Row("a shared byte", [(add("a.o", 0, shared), refused(4, 13))])
    changes = [
        (A, [{0: 0x00}], 2), (A, [{4: 1}, {18: 3}], 3), (A, [{58: 0x3F}, {60: 4}], 4), (A, [{60: 0}, {62: 3}], 5),
        (A, [{62: 1}, {186: 1}, {200: 3}], 6), (A, [{152: 0}, {156: 3}, {160: 0x46}], 7),
        (B, [{332: 3}, {332: 2}, {344: 0x17}], 8), (B, [{112: 9}, {112: 6}, {116: 0x30}, {116: 0x13}, {118: 5}], 9),
        (B, [{148: 2}, {420: 9}, {456: 3}, {460: 5}], 10), (B, [{144: 9}], 11), (B, [{136: 2}, {228: 8}], 12)]
    yield Row("one byte changed", [(add("b.o", 0, changed(given, change)), refused(4, number))
                                   for given, all_changes, number in changes for change in all_changes])
    local = changed(B, {116: 0, 118: 1, 332: 2})
    yield once("a local symbol", T, [("b.o", local)], (IMAGE, at({4096: "E8 FB FF FF FF"})),
               (IMAGE, lambda answer: answer.startswith(b"bytes %d\n" % length(4101, [".text"]))))


def script_rows():
    """Refused scripts, limits, and texts that are just accepted."""
    table = [
        ("SECTIONS { . = 08; }", 1), ("SECTIONS", 2), ("SECTIONS { .a : { } .a : { } }", 3),
        ("SECTIONS { .a : { . = . + 4 + 4; } }", 4), (body("*(a])"), 2), (body("*([)"), 2), (body("*([^a])"), 1),
        ("x = 18446744073709551616;", 5), ("x = 18014398509481984K;", 5), ("x = " + "~" * 65 + "1;", 5),
        (" " * 1_048_577, 5), ("{" * 4_097, 5), ("/* x", 1), ('x = "', 1), (body("*(SORT(EXCLUDE_FILE(b.o) .a))"), 2),
        (body("*(EXCLUDE_FILE() .a)"), 2), (body("*(EXCLUDE_FILE(b.o))"), 2), (body("EXCLUDE_FILE(b.o) *(.a)"), 2),
        (body("*(.a) . = ALIGN(., 8);"), 4), (body("*(.a) . = ALIGN(8, 8);"), 4), (body("*(.a) . = . * 2;"), 4),
        (body("*(.a) x += 1;"), 2), (body("*(.a) a* = 1;"), 2), ("x = .;", 4), ("x = ALIGN(4);", 4),
        ('SECTIONS { ASSERT(., "x") }', 4), ("MEMORY { r : ORIGIN = ., LENGTH = 1 }", 4),
        ("MEMORY { r : ORIGIN = ORIGIN(r), LENGTH = 1 }", 3), ("SECTIONS { .a : { } >r }", 3),
        ("SECTIONS { .a : { } >r } MEMORY { r : ORIGIN = 0, LENGTH = 1 }", 3), ("ENTRY(a) ENTRY(a)", 3),
        ("SECTIONS { } SECTIONS { }", 3), ("MEMORY { } MEMORY { }", 3), ("x = 1; x = 2;", 3),
        ("x = 1; PROVIDE(x = 1)", 3),
        ("MEMORY { r : ORIGIN = 0, LENGTH = 1 } SECTIONS { .a : AT(1) { } AT>r }", 2), ("x = 1K2;", 1), ("x = 0x;", 1),
        ("x = 1-2;", 0), ("x = A-B;", 0), ("SECTIONS { . = .-4; .a : { } }", 0), ("x = 1M-1K;", 0),
        ("SECTIONS { .a : { } =0x909 }", 2), ("SECTIONS { .a : { } =144 }", 2), ("SECTIONS { .a : { } =0X90 }", 2),
        ("SECTIONS { .a : { } =0x112233445566778899 }", 5), ("SECTIONS { .a : { } =0x001122334455667788 }", 2),
        (body("BYTE(" + "-" * 63 + "1)"), 0), (body("BYTE(" + "-" * 64 + "1)"), 5), ("n" * 256 + " = 1;", 5),
        ("n" * 255 + " = 1;", 0), (body("*(" + "w" * 256 + ")"), 5), (body("*(.text/*c*/)"), 0), (";;", 0), ("", 0),
        (body("*([a-]) *([-a]) *([b-a])"), 0), (body("*([])"), 2), (body("*([\\a])"), 2), ("HIDDEN(x = 1);", 2),
        ("SECTIONS { AT : { } }", 2), ("x = DEFINED(y);", 2), ("/*/ x = 1; */", 0), ("}", 2)]
    for given, number in table:
        yield Row("script " + given[:60], [(script(given), refused(5, number) if number else anything)],
                  status=int(number == 0 and has_fault(given)))
    yield Row("the greatest number", [(script("x = 18446744073709551615;"), linked(0, length(64, [], ["x"]))),
                                      (MAP, has_lines("symbol ffffffffffffffff x script"))])
    yield Row("64 operators", [(script("x = " + "~" * 64 + "1;"), linked(0, length(64, [], ["x"])))])


def has_fault(given):
    """Scripts above that are accepted but have a link with faults: a name that is not there."""
    return given.startswith("x = A-B")


def stream_rows():
    """Bad tails and limits of lines."""
    for end in (b"add a.o 0\n", b"script 5\nSECT", b"add a.o 01 0\n", b"add  a.o 0 0\n", b"image \n", b"IMAGE\n",
                b"a" * 513 + b"\n",
                b"add a.o 0 67108865\n", b"image", b"\n", b"add a.o 18446744073709551616 0\n", b"add a.o +1 0\n",
                b"add a.o 0 4\nabc", b"add  0 0\n", b"script\n", b"replace a.o\n", b"image\r\n"):
        yield Row(f"tail {end[:30]!r}", [], status=2, end=end)
    longest = b"remove " + b"n" * 505 + b"\n"
    yield Row("the longest line", [(longest, refused(2))])
    yield Row("one byte more", [], status=2, end=b"remove " + b"n" * 506 + b"\n")
    yield Row("zeros as an object", [(b"add a.o 0 67108864\n" + bytes(2 ** 26), refused(4, 2))])
    yield Row("an empty stream", [])
    yield Row("a position past the end", [(b"add a.o 18446744073709551615 0\n", refused(3))])


GROUPS = (("first", first_rows), ("names", name_rows), ("gathering", gathering_rows), ("layout", layout_rows),
          ("expressions", expression_rows), ("edits", edit_rows), ("scripts", script_rows), ("streams", stream_rows),
          *((f"corners-of-{name}", rows) for name, rows in choices.GROUPS))
"""The worked rows and those for corners, by what they are of, in their order."""


def all_rows():
    """Every worked row, and the rows for corners."""
    for _, group in GROUPS:
        yield from group()


def rows_by_group():
    """All of these, and the rows for the bytes of images, each with the name of its group."""
    found = []
    for name, group in GROUPS:
        for row in group():
            found.append(row)
            yield name, row
    for row in image_rows.all_rows(found):
        yield "images", row


def rows_with_images():
    """The same without the names."""
    for _, row in rows_by_group():
        yield row


def field_cases(result):
    """The fields of single relocations: type, S, A, P, and the bytes or None for an overflow."""
    table = [
        (2, 0x401010, -4, 0x401001, "0B000000"), (2, 0xFFFFFFFFFFFFFFFF, 0, 1, "FEFFFFFF"),
        (1, 0x401000, -1, 7, "FF0F400000000000"), (24, 0, 0, 1, "FF" * 8), (2, 0x7FFFFFFF, 0, 0, "FFFFFF7F"),
        (2, 0x80000000, 0, 0, None), (10, 0xFFFFFFFF, 0, 0, "FFFFFFFF"), (10, 0, -1, 0, None),
        (11, 0, -0x80000000, 0, "00000080"), (12, 0xFFFF, 0, 0, "FFFF"), (12, 0x10000, 0, 0, None),
        (12, 0, -0x8000, 0, "0080"), (12, 0, -0x8001, 0, None), (14, 255, 0, 0, "FF"), (14, 256, 0, 0, None),
        (15, 127, 0, 0, "7F"), (15, 128, 0, 0, None), (14, 0, -128, 0, "80"), (14, 0, -129, 0, None),
        (13, 0x7FFF, 0, 0, "FF7F"), (13, 0x8000, 0, 0, None), (4, 0, -0x80000000, 0, "00000080"),
        (4, 0, -0x80000001, 0, None), (10, 0x100000000, 0, 0, None), (11, 0x80000000, 0, 0, None)]
    for kind, s, a, p, wanted in table:
        found = relocation.field(kind, s, a, p)
        good = isinstance(found, relocation.Overflow)
        if wanted is not None:
            good = found == relocation.Field(bytes.fromhex(wanted))
        result.check(good, f"field {kind} {s:x} {a} {p:x}: {found}")


def pattern_cases(result):
    """Names that a pattern matches, and names that it doesn't."""
    table = [(".text.*", ".text.", ".text"), ("*.o", "lib/a.o", "a.obj"), ("a\\*", "a*", "ab"), ("[a-c]?", "bz", "b"),
             ("[-a]", "-", "b"), ("[a-]", "-", "b"), ("[a-c-e]", "-", "d"), ("[b-a]*", None, "a"), ("*", "a/b", None),
             ("?", "/", "ab"), ("[*?]", "*", "a"), ("a*b*c", "aXbYbc", "acb"), ("[/]", "/", "x"), ("**", "x", None),
             ("\\[a\\]", "[a]", "a"), ("[a-cx-z]", "y", "d")]
    for word, matched, other in table:
        parts = patterns.pattern(word)
        result.check(matched is None or patterns.matches(parts, matched), f"{word} should match {matched}")
        result.check(other is None or not patterns.matches(parts, other), f"{word} should not match {other}")


def object_cases(result):
    """Every single byte set to 00, 7F and FF: an object or a number, and never a fault of the reader."""
    for given in (A, B):
        for at_byte in range(len(given)):
            for value in (0x00, 0x7F, 0xFF):
                bytes_changed = changed(given, {at_byte: value})
                number = objects.refusal(bytes_changed)
                read = objects.read(bytes_changed) if number == 0 else None
                result.check(1 <= number <= 13 or read is not None, "an object or a number")


def program_cases(result):
    """`link` over files: statuses, standard error, and which files are made."""
    program = os.path.join(os.path.dirname(os.path.dirname(os.path.abspath(__file__))), "model")

    def device(name):
        return f"device\n{name}: cannot be opened: No such file or directory (os error 2)\n".encode()

    with tempfile.TemporaryDirectory() as folder:
        for name, content in (("t.ld", T.encode()), ("a.o", A), ("c.o", B), ("bad.ld", b"SECTIONS"), ("bad.o", b"")):
            with open(os.path.join(folder, name), "wb") as out:
                out.write(content)
        table = [
            ("-T t.ld -o out --Map m a.o", 0, b"", True), ("-T t.ld -o out a.o a.o", 2, b"a.o: refused 1 0\n", False),
            ("-T t.ld -o out no.o", 3, device("no.o"), False), ("-T bad.ld -o out no.o", 3, device("no.o"), False),
            ("-T bad.ld -o out bad.o", 2, b"script: refused 5 2\n", False),
            ("-T t.ld -o out bad.o", 2, b"bad.o: refused 4 1\n", False), ("-T t.ld -o out", 0, b"", True),
            ("-T t.ld -o out --Map m c.o", 1, b"F12 c.o .text 0000000000000001 w\n", False),
            ("-T t.ld -o no/out a.o", 3, device("no/out"), False),
            ("-T t.ld -o out -e nope a.o", 1, b"F2 nope\n", False)]
        for words, status, errors, made in table:
            for name in ("out", "m"):
                if os.path.exists(os.path.join(folder, name)):
                    os.remove(os.path.join(folder, name))
            ran = subprocess.run([program, "link", *words.split()], cwd=folder, capture_output=True)
            there = os.path.exists(os.path.join(folder, "out"))
            result.check((ran.returncode, ran.stderr, there, ran.stdout) == (status, errors, made, b""),
                         f"link {words}: {ran.returncode} {ran.stderr!r} {there}")
        ran = subprocess.run([program, "link", "-T", "t.ld"], cwd=folder, capture_output=True)
        result.check(ran.returncode == 2, "link without -o")


def main(folders):
    """Runs all rows, also those for edges, and all cases; stores the streams where folders are given."""
    sys.setrecursionlimit(10_000)
    result, count = Result(), 0
    for folder in folders:
        os.makedirs(folder, exist_ok=True)
    for row in itertools.chain(rows_with_images(), edge_rows.all_rows(), program_rows.all_rows()):
        rows.run(row, result)
        for folder in folders:
            if len(rows.stream(row)) < 2 ** 21:
                rows.store(folder, f"{count:03}", row.options, rows.stream(row))
        count += 1
    for cases in (field_cases, pattern_cases, object_cases, program_cases, program_rows.link_cases):
        cases(result)
    for line in result.differences:
        print(line)
    print(f"{count} rows, {result.cases} cases, {len(result.differences)} differ")
    return int(bool(result.differences))
