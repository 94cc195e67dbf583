"""Rows for the edges of single phases, as whole links: edits, names that are declared and taken back in many orders,
patterns, sorts, common blocks, what is live, fields at the ends of their ranges; and with those of `layout_rows` the
rows of each phase.

A number, a line or an order that stands beside a script here was worked out by hand.
"""
import random

from . import elf, layout_rows, relocation
from .build import CODE, DATA, Rel, Sec, Sym, build, changed, object_a, object_b
from .choices import accepted, given
from .edits import Options
from .layout_rows import shown
from .rows import (FAULTS, IMAGE, MAP, Row, add, at, has_lines, lacks, linked, move, refused, remove, replace, script,
                   text)

ABS, COMMON, LOCAL, WEAK, NOBITS = elf.SHN_ABS, elf.SHN_COMMON, elf.STB_LOCAL, elf.STB_WEAK, elf.SHT_NOBITS
TOP, HALF = 2 ** 64 - 1, 2 ** 63


# Gathering: patterns, words, sorts, common blocks, what is live.

PATTERNS = [(".text.*", ".text.", ".text"), ("*.o", "lib/a.o", "a.obj"), ("a\\*", "a*", "ab"), ("[a-c]?", "bz", "b"),
            ("[-a]", "-", "b"), ("[a-]", "-", "b"), ("[a-c-e]", "-", "d"), ("?", "/", "ab"), ("[*?]", "*", "a"),
            ("a*b*c", "aXbYbc", "acb"), ("[/]", "/", "x"), ("\\[a\\]", "[a]", "a"), ("[a-cx-z]", "y", "d")]


def taken(answer):
    """The owners and names of a map's pieces, in their order."""
    return [line.split(b" ", 3)[3].decode("latin-1") for line in answer.split(b"\n") if line.startswith(b"piece")]


def pieces(*wanted):
    """A query of the map, which has these pieces in this order."""
    return MAP, lambda answer: taken(answer) == list(wanted)


def pattern_rows():
    """Each pattern for sections, with a name that it matches and one that it doesn't; then for names of objects."""
    steps = [(add("a.o", 0, build([])), accepted)]
    for word, matched, other in PATTERNS:
        steps += [(script("SECTIONS { .out : { *(%s) } }" % word), accepted),
                  (replace("a.o", build([Sec(matched, b"\1", DATA), Sec(other, b"\2", DATA)])), accepted),
                  (FAULTS, text(f"F3 a.o {other}"))]
    steps += [(script("SECTIONS { .out : { *([b-a]*) } }"), accepted), (FAULTS, shown), (remove("a.o"), accepted)]
    one = build([Sec(".a", b"\1", DATA)])
    for word, matched, other in PATTERNS:
        steps += [(script("SECTIONS { .out : { %s(.a) } }" % word), accepted), (add(matched, 0, one), accepted),
                  (add(other, 1, one), accepted), (FAULTS, text(f"F3 {other} .a")), (remove(other), accepted),
                  pieces(f"{matched} .a"), (remove(matched), accepted)]
    yield Row("patterns and the names that they match", steps)


def word_rows():
    """Words, exclusions and statements in the order of their rows."""
    parts = lambda *names: build([Sec(name, bytes([k + 1]), DATA) for k, name in enumerate(names)])
    two = [("a.o", parts(".a", ".b")), ("b.o", parts(".a", ".b"))]
    three = [(name, parts(".a")) for name in ("a.o", "b.o", "c.o")]
    all_of = "a.o .a|a.o .b|b.o .a|b.o .b"
    for inside, objects, wanted in (
            ("*(.b .a)", two, all_of), ("*(.?) *(.a)", two, all_of), ("*(.a) *(.?)", two,
             "a.o .a|b.o .a|a.o .b|b.o .b"),
            ("b.o(.a) *(.a) *(*)", two, "b.o .a|a.o .a|a.o .b|b.o .b"),
            ("*(EXCLUDE_FILE(b.o a.o) .a EXCLUDE_FILE(c*) .?)", three, "a.o .a|b.o .a|c.o .a"),
            ("*(EXCLUDE_FILE(*) .a .a)", three, "a.o .a|b.o .a|c.o .a"), ("*(.b) *(.a)", two,
             "a.o .b|b.o .b|a.o .a|b.o .a")):
        yield given(f"the order of {inside}", "SECTIONS { .out : { %s } }" % inside, objects,
        pieces(*wanted.split("|")),
                    (move(objects[-1][0], 0), accepted), (MAP, shown), (IMAGE, shown))
    longer = parts(".aa", ".a", ".a.b", ".A", ".a")
    yield given("names that others begin with", "SECTIONS { .out : { *(SORT(*)) } }", [("a.o", longer), ("b.o",
    longer)],
                pieces("a.o .A", "b.o .A", "a.o .a", "a.o .a", "b.o .a", "b.o .a", "a.o .a.b", "b.o .a.b", "a.o .aa",
                       "b.o .aa"),
                (move("b.o", 0), accepted), (MAP, shown))


def common_rows():
    """Common blocks beside sections, one of which is called COMMON, while objects come, go and change places."""
    one = build([Sec(".a", b"\1", DATA)], [Sym("x", COMMON, 8, 24), Sym("y", COMMON, 16, 4), Sym("z", COMMON, 1, 1)])
    two = build([Sec("COMMON", b"\2", DATA)], [Sym("y", COMMON, 4, 40), Sym("w", COMMON, 2, 3)])
    weak = build([Sec(".a", b"\3", DATA)], [Sym("x", 1, binding=WEAK), Sym("z", COMMON, 4, 9)])
    own = build([Sec(".a", b"\4", DATA)], [Sym("y", 1), Sym("w", 1, binding=WEAK)])
    # y is 40 bytes of b.o, as the larger one, and aligned to 16 as a.o wants it
    for inside, wanted in (
            ("*(.a) *(COMMON)", "a.o .a|a.o COMMON|a.o COMMON|b.o COMMON|b.o COMMON|b.o COMMON"), ("b.o(COMMON) *(*)",
             None),
            ("*(EXCLUDE_FILE(a.o) COMMON) *(.a) *(COMMON)", None), ("*(SORT_BY_ALIGNMENT(*))", None)):
        steps = [(MAP, shown), (IMAGE, shown)]
        edits = (add("c.o", 0, weak), move("a.o", 2), add("d.o", 1, own), remove("b.o"), move("c.o", 2), remove("a.o"),
                 remove("d.o"), add("b.o", 0, two), replace("c.o", one))
        for edit in edits:
            steps += [(edit, accepted), (MAP, shown), (FAULTS, shown), (IMAGE, shown)]
        yield given(f"common blocks in {inside}", "SECTIONS { . = 0x1000; .out : { %s } }" % inside,
                    [("a.o", one), ("b.o", two)], *steps)


def collected_rows():
    """What is live: rings, common blocks, `/DISCARD/`."""
    on = Options(gc=True)
    ring = build([Sec(".a", bytes(8), DATA), Sec(".b", bytes(8), DATA), Sec(".c", bytes(8), DATA)],
                 [Sym("a", 1), Sym("b", 2), Sym("c", 3)], [Rel(1, 0, 1, "b"), Rel(2, 0, 1, "a"), Rel(3, 0, 1, "c")])
    whole = "SECTIONS { .out : { *(.?) *(COMMON) } }"
    yield given("a ring that no root reaches", "ENTRY(c) " + whole, [("a.o", ring)], pieces("a.o .c"),
                (script("ENTRY(b) " + whole), accepted), pieces("a.o .a", "a.o .b"), (script(whole), accepted),
                 pieces(),
                options=on)
    block = build([Sec(".a", bytes(8), DATA), Sec(".b", bytes(8), DATA)],
                  [Sym("a", 1), Sym("z", COMMON, 4, 4), Sym("b", 2, binding=WEAK)], [Rel(1, 0, 1, "z")])
    other = build([Sec(".a", bytes(8), DATA)], [Sym("z", COMMON, 4, 8), Sym("b", 1)], [Rel(1, 0, 1, "z")])
    yield given("a common block as a target", "ENTRY(a) " + whole, [("a.o", block), ("b.o", other)],
                pieces("a.o .a", "a.o COMMON"), (script("ENTRY(b) " + whole), accepted), pieces("b.o .a", "a.o COMMON"),
                (remove("b.o"), accepted), pieces("a.o .b"), options=on)
    parts = build([Sec(".a", b"\1", DATA), Sec(".e", b"", DATA), Sec(".n", b"", DATA, NOBITS, 1, 4)])
    out = "SECTIONS { .out : { *(.a) } /DISCARD/ : { *(.e) a.o(.n) } }"
    yield given("orphans and what is discarded", "SECTIONS { .out : { *(.x) } }", [("a.o", parts)],
                (FAULTS, text("F3 a.o .a", "F3 a.o .n")), (script(out), accepted), pieces("a.o .a"),
                (add("b.o", 0, parts), accepted), (FAULTS, text("F3 b.o .n")), status=1)


# Names that are declared and taken back.

PLAIN = "SECTIONS { . = 0x401000; .text : { *(.text) *(COMMON) } }"


def declared(*symbols):
    """An object with 4 bytes of .text and these symbols."""
    return build([Sec(".text", b"\x90\x90\x90\xc3")], symbols)


def strong(name, value=0):
    return Sym(name, 1, value)


def weak(name, value=0):
    return Sym(name, 1, value, binding=WEAK)


def common(name, size, alignment):
    return Sym(name, COMMON, alignment, size)


def pair_rows():
    """One object refers to `w`; two others declare it in each of these ways, and a script may give it."""
    queries = [(MAP, shown), (FAULTS, shown), (IMAGE, shown)]
    steps = [(script(PLAIN), accepted), (add("c.o", 0, object_b()), accepted)]
    for first, second in (
            (weak("w"), weak("w")), (weak("w"), strong("w")), (strong("w"), weak("w")), (common("w", 4, 4), weak("w")),
            (weak("w"), common("w", 8, 8)), (Sym("w", 1, binding=LOCAL), weak("w")), (Sym("w", ABS, 0x400ff5),
             weak("w")),
            (Sym("w"), Sym("w", binding=WEAK)), (strong("w"), strong("w")), (common("w", 4, 16), common("w", 8, 2))):
        for before in ("", "w = 0x401002; ", "PROVIDE(w = 0x401003); "):
            steps += [(script(before + PLAIN), accepted), (add("a.o", 0, declared(first)), accepted), *queries,
                      (add("b.o", 1, declared(second)), accepted), *queries, (move("b.o", 0), accepted), *queries,
                      (remove("a.o"), accepted), *queries, (remove("b.o"), accepted), *queries]
    yield Row("one name declared twice in each way", steps)


def order_rows():
    """Names whose decision changes with each object that comes or goes."""
    yield given("a name and its duplicates come and go", PLAIN, [("5.o", declared(strong("f"), strong("g")))],
                (MAP, has_lines("symbol 0000000000401000 f 5.o", "symbol 0000000000401000 g 5.o")),
                (add("4.o", 1, declared(strong("f"), strong("f", 1))), linked(1)),
                (FAULTS, text("F1 f 4.o 5.o", "F1 f 4.o 5.o")), (remove("5.o"), linked(1)),
                (FAULTS, text("F1 f 4.o 4.o")), (remove("4.o"), accepted), (script("f = 1; g = 2; " + PLAIN), accepted),
                (MAP, has_lines("symbol 0000000000000001 f script", "symbol 0000000000000002 g script")),
                (add("5.o", 0, declared(strong("f"), strong("g"))), linked(1)),
                (FAULTS, text("F1 f 5.o script", "F1 g 5.o script")), status=1)
    yield given("a common block by size and alignment", PLAIN, [("0.o", declared(common("c", 4, 16)))],
                (MAP, has_lines("piece 0000000000401010 0000000000000004 0.o COMMON")),
                (add("1.o", 1, declared(common("c", 12, 4), common("d", 1, 1))), accepted),
                (MAP, has_lines("piece 0000000000401010 000000000000000c 0.o COMMON",
                                "piece 000000000040101c 0000000000000001 1.o COMMON")),
                (add("2.o", 0, declared(common("c", 8, 8), weak("d"))), accepted),
                (MAP, has_lines("symbol 0000000000401010 c 2.o", "symbol 000000000040101c d 1.o")),
                (remove("2.o"), accepted), (MAP, shown), (remove("0.o"), accepted),
                (MAP, has_lines("piece 0000000000401004 000000000000000c 1.o COMMON",
                                "piece 0000000000401010 0000000000000001 1.o COMMON")))
    provide = "PROVIDE(p = 1); PROVIDE(q = 2); " + PLAIN
    yield given("a PROVIDE beside definitions that come and go", provide, [("0.o", declared(Sym("p", binding=WEAK)))],
                (MAP, has_lines("symbol 0000000000000001 p script")), (MAP, lacks(" q ")),
                (add("1.o", 1, declared(weak("p"), Sym("q"))), accepted),
                (MAP, has_lines("symbol 0000000000401004 p 1.o", "symbol 0000000000000002 q script")),
                (remove("1.o"), accepted), (MAP, has_lines("symbol 0000000000000001 p script")), (MAP, lacks(" q ")),
                (remove("0.o"), accepted), (MAP, lacks("symbol")),
                (add("0.o", 0, declared(common("p", 4, 4), strong("q"))), accepted),
                (MAP, has_lines("symbol 0000000000401004 p 0.o", "symbol 0000000000401000 q 0.o")))
    first = lambda name, value: (MAP, has_lines(f"symbol {value:016x} w {name}"))
    yield given("the first weak definition moves", PLAIN, [(f"{n}.o", declared(weak("w", n + 1))) for n in range(3)],
                first("0.o", 0x401001), (move("2.o", 0), accepted), first("2.o", 0x401003), (remove("0.o"), accepted),
                first("2.o", 0x401003), (remove("2.o"), accepted), first("1.o", 0x401002),
                (add("0.o", 1, declared(weak("w", 1))), accepted), first("1.o", 0x401002), (move("0.o", 0), accepted),
                first("0.o", 0x401001))
    many = [(f"{n}.o", declared(*symbols)) for n, symbols in enumerate((
        [weak("w", k) for k in range(20)], [weak("w", k) for k in range(20)] + [common("c", 4, 4)],
        [common("c", 1 + k, 1) for k in range(9)] + [weak("w")]))]
    yield given("a name many times in one object", PLAIN, many, first("0.o", 0x401000),
                (MAP, has_lines("symbol 000000000040100c c 1.o")), (move("0.o", 2), accepted), (MAP, shown),
                (remove("0.o"), accepted), (MAP, shown), (move("2.o", 0), accepted), first("2.o", 0x401000))


def odd_rows():
    """Names of signs in maps and in fault lines, and bytes that no name of a linked section may have."""
    odd = build([Sec(".t<~>", b"\1" * 8, DATA), Sec(".u\"|", b"\2", DATA)], [Sym("a{b}", 1), Sym("!", 2), Sym("n@n")],
                [Rel(1, 0, 1, "n@n")])
    everything = "SECTIONS { . = 0x1000; .t : { *(*) } }"
    steps = [(add("c.o", 0, build([Sec(name, b"\1", DATA)])), refused(4, 7)) for name in (".a b", ".a\n", ".a\xe9",
    ".a\x7f")]
    yield given("names of signs", everything, [("a.o", odd)], *steps,
                (FAULTS, text("F12 a.o .t<~> 0000000000000000 n@n")),
                (add("b.o", 1, declared(strong("n@n"), strong("a{b}"))), linked(1)),
                (FAULTS, text("F1 a{b} b.o a.o")), (remove("a.o"), accepted),
                (add("a.o", 0, build([Sec(".u\"|", b"\2", DATA)], [Sym("!", 1)])), accepted),
                (MAP, has_lines("piece 0000000000001000 0000000000000001 a.o .u\"|",
                                "piece 0000000000001001 0000000000000004 b.o .text", "symbol 0000000000001000 ! a.o",
                                "symbol 0000000000001001 a{b} b.o", "symbol 0000000000001001 n@n b.o")))


# Fields by the psABI's table: type, S, A, P, and the field, or the value that is out of range.

def past(value):
    """A value that is out of range."""
    return relocation.Overflow(value)


FIELDS = [
    # 8 bytes take any value
    (1, 0x401000, -1, 0, 0x400fff), (1, 0x401000, -1, 77, 0x400fff), (1, 0, -2 ** 63, 0, HALF), (1, TOP, 1, 0, 0),
    (24, 0, 0, 1, TOP), (24, 5, -4, 1, 0),
    # from the place, in 4 bytes with a sign
    (2, 0x7fffffff, 0, 0, 0x7fffffff), (2, 0x80000000, 0, 0, past(0x80000000)), (2, 0, 0, 0x80000000, 0x80000000),
    (2, 0, 0, 0x80000001, past(0xffffffff7fffffff)), (2, 0x401010, -4, 0x401001, 0x0b), (2, TOP, 0, 1, 0xfffffffe),
    (2, 1, 0, TOP - 8, 10), (4, 0x7fffffff, 0, 0, 0x7fffffff), (4, 0x80000000, 0, 0, past(0x80000000)),
    (4, 0, 0, 0x80000000, 0x80000000), (4, 0, 0, 0x80000001, past(0xffffffff7fffffff)),
    (4, 0x401010, -4, 0x401001, 0x0b),
    # 4 bytes without a sign, and with one
    (10, 0xffffffff, 0, 0, 0xffffffff), (10, 0xffffffff, 1, 0, past(0x100000000)), (10, 0, -1, 0, past(TOP)),
    (10, 0x80000000, 0, 9, 0x80000000), (11, 0x80000000, 0, 9, past(0x80000000)), (11, 0x7fffffff, 0, 9, 0x7fffffff),
    (11, 0, -0x80000000, 0, 0x80000000), (11, 0, -0x80000001, 0, past(0xffffffff7fffffff)),
    # 2 bytes and 1 byte hold unsigned and signed numbers, from the place signed ones alone
    (12, 0xffff, 0, 0, 0xffff), (12, 0x10000, 0, 0, past(0x10000)), (12, 0, -0x8000, 0, 0x8000),
    (12, 0, -0x8001, 0, past(0xffffffffffff7fff)), (13, 0x7fff, 0, 0, 0x7fff), (13, 0x8000, 0, 0, past(0x8000)),
    (13, 0, 0, 0x8000, 0x8000), (13, 0, 0, 0x8001, past(0xffffffffffff7fff)), (13, 0x10000, 0, 1, past(0xffff)),
    (14, 255, 0, 0, 255), (14, 256, 0, 0, past(256)), (14, 0, -128, 0, 0x80), (14, 0, -129, 0,
     past(0xffffffffffffff7f)),
    (15, 127, 0, 0, 127), (15, 128, 0, 0, past(128)), (15, 0, 0, 128, 0x80), (15, 0, 0, 129, past(0xffffffffffffff7f)),
    (15, 256, 0, 1, past(255)), (15, 1, -1, 1, 0xff)]


def field_rows():
    """Each row: a section of 8 bytes at P with the field in it, against a symbol of value S."""
    steps = [(add("s.o", 0, build([])), accepted), (add("d.o", 1, build([])), accepted)]
    for kind, s, a, p, wanted in FIELDS:
        steps += [(script(f"SECTIONS {{ .d {p:#x} : {{ *(.d) }} }}"), accepted),
                  (replace("s.o", build([], [Sym("v", ABS, s)])), accepted),
                  (replace("d.o", build([Sec(".d", b"\xee" * 7 + b"\xee", DATA)], [Sym("v")], [Rel(1, 0, kind, "v",
                   a)])),
                   accepted)]
        if isinstance(wanted, relocation.Overflow):
            steps.append((FAULTS, text(f"F14 d.o .d 0000000000000000 {kind} {wanted.value:016x}")))
        else:
            width = relocation.WIDTHS[kind]
            place = p % 4096 if p % 4096 >= 120 else 4096 + p % 4096
            field = wanted.to_bytes(width, "little") + b"\xee" * (8 - width)
            steps.append((IMAGE, at({place: field.hex()})))
    yield Row("fields by the psABI's table", steps)


def form_rows():
    """F12, F13 and F14 in each form, between fields that are good, in two objects that come, change places and go."""
    symbols = [Sym("here", 1, 4), Sym("lost", 3, 0), Sym("none"), Sym("weak", binding=WEAK)]
    sections = [Sec(".text", bytes(64), CODE), Sec(".data", bytes(64), DATA), Sec(".lost", b"", DATA)]
    first = build(sections, symbols, [
        Rel(1, 40, 1, "none"), Rel(1, 0, 1, "lost"), Rel(1, 8, 1, "here", -4), Rel(1, 16, 10, "here", -2 ** 40),
        Rel(1, 20, 11, "here", 2 ** 31), Rel(1, 24, 12, "here"), Rel(1, 26, 13, "here"), Rel(1, 28, 14, "here"),
        Rel(1, 29, 15, "weak", 0), Rel(1, 30, 0, "none"), Rel(1, 32, 2, "weak", 2 ** 33), Rel(2, 0, 4, "none", -4),
        Rel(2, 8, 24, "weak", 5), Rel(2, 16, 14, "weak", 255), Rel(2, 17, 14, "weak", 256), Rel(2, 20, 10, 0, 77)])
    second = build(sections[:2], [Sym("none"), Sym("here"), Sym("local", 2, 3, binding=LOCAL)],
                   [Rel(1, 8, 1, "here"), Rel(1, 0, 1, "none"), Rel(2, 0, 1, 1, 1)])
    away = "SECTIONS { . = 0x400000; .text : { *(.text) } .data : { *(.data) } /DISCARD/ : { *(.lost) } }"
    by_hand = ["F12 a.o .text 0000000000000028 none", "F13 a.o .text 0000000000000000 2",
               "F14 a.o .text 0000000000000010 10 ffffff0000400004",
               "F14 a.o .text 0000000000000014 11 0000000080400004",
               "F14 a.o .text 0000000000000018 12 0000000000400004",
               "F14 a.o .text 000000000000001c 14 0000000000400004",
               "F14 a.o .text 000000000000001d 15 ffffffffffbfffe3",
               "F14 a.o .text 0000000000000020 2 00000001ffbfffe0"]
    yield given("each fault of a field in each form", away, [("a.o", first), ("b.o", second)],
                (FAULTS, lambda answer: answer.split(b"\n")[1:9] == [line.encode() for line in by_hand]),
                (move("b.o", 0), accepted), (FAULTS, shown), (remove("a.o"), linked(1)),
                (FAULTS, text("F12 b.o .text 0000000000000008 here", "F12 b.o .text 0000000000000000 none")),
                (add("c.o", 0, declared(strong("none"), strong("here", 2))), accepted), (IMAGE, shown),
                (script(away.replace("0x400000", "-256")), accepted), (FAULTS, shown), (IMAGE, shown))


# Edits of a project.

def project_rows():
    """Each edit, each refusal in its order, names that are taken again."""
    code, call = object_a(), changed(object_b(), {116: elf.STB_WEAK << 4})
    other = body_of("*(COMMON) *(.text)")
    yield Row("each edit of a project", [
        (script(PLAIN), accepted), (add("a.o", 0, code), accepted), (add("b.o", 0, call), accepted),
        (add("c.o", 1, code), accepted), pieces("b.o .text", "c.o .text", "a.o .text"), (script(other), accepted),
        (move("b.o", 2), accepted), pieces("c.o .text", "a.o .text", "b.o .text"), (replace("a.o", call), accepted),
        (IMAGE, shown), (remove("c.o"), accepted), pieces("a.o .text", "b.o .text"), (add("d.o", 1, code), accepted),
        pieces("a.o .text", "d.o .text", "b.o .text"), (script(""), linked(1)),
        (FAULTS, text("F3 a.o .text", "F3 d.o .text", "F3 b.o .text"))], status=1)
    none, long = b"no object", "n" * 256
    yield Row("each refusal of an edit, in its order", [
        (script(PLAIN), accepted), (add("a.o", 0, code), accepted), (add("a.o", 9, none), refused(1)),
        (add(long, 2, none), refused(3)), (add(long, 1, none), refused(6)), (add("b.o", 1, none), refused(4, 1)),
        (replace("b.o", none), refused(2)), (replace("a.o", none), refused(4, 1)), (move("b.o", 9), refused(2)),
        (move("a.o", 1), refused(3)), (remove("b.o"), refused(2)), (script("\x01"), refused(5, 1)),
        (script("x = "), refused(5, 2)), (script("x = 1; x = 2;"), refused(5, 3)), pieces("a.o .text"),
        (remove("a.o"), accepted), (remove("a.o"), refused(2)), pieces()])
    adds = [(add(f"{n}.o", 0, code), accepted) for n in range(6)]
    removes = [(remove(f"{n}.o"), accepted) for n in (1, 4, 2)]
    later = [(add(f"{n}.o", 1, call), accepted) for n in (7, 8, 9, 10)]
    order = [f"{n}.o .text" for n in (5, 10, 9, 8, 7, 3, 0)]
    yield Row("objects go and others come", [
        (script(PLAIN), accepted), *adds, *removes, pieces("5.o .text", "3.o .text", "0.o .text"), *later,
        pieces(*order), (IMAGE, shown), (move("0.o", 0), accepted), pieces(order[-1], *order[:-1]),
        (add("1.o", 7, code), accepted), pieces(order[-1], *order[:-1], "1.o .text")])


def body_of(inside):
    """A script with one output section of that body."""
    return "SECTIONS { . = 0x401000; .text : { %s } }" % inside


# The rows of each phase.
GROUPS = {
    "project": (project_rows,),
    "names": (pair_rows, order_rows),
    "gather": (pattern_rows, word_rows, common_rows, collected_rows),
    "value": (layout_rows.value_rows,),
    "place": (layout_rows.layout_rows, layout_rows.resumed_rows),
    "segments": (layout_rows.segment_rows,),
    "targets": (field_rows, form_rows),
    "text": (odd_rows,),
}


def rows_of(group):
    """Every row of a phase."""
    for rows in GROUPS[group]:
        yield from rows()


def all_rows():
    """Every row for an edge."""
    for group in GROUPS:
        yield from rows_of(group)


# Lists of edits by a fixed rule, of six objects and three scripts, for names that come and go in many orders.

LISTED = ["a", "b", "c", "d", "main", "_start", "errno", "x" * 40]
GIVEN = ["", "a = 1; PROVIDE(b = 2); ", "PROVIDE(main = 3); PROVIDE(d = 4); c = 5; "]


def chance_symbol(chance):
    """A symbol of one of the names, declared in any way."""
    name, value = chance.choice(LISTED), chance.randrange(4)
    return chance.choice((strong(name, value), weak(name, value), common(name, 1 + 7 * value, 1 << value), Sym(name),
                          Sym(name, binding=WEAK), Sym(name, ABS, value), Sym(name, 1, value, binding=LOCAL)))


def name_list(seed, count):
    """The bytes of a stream of so many edits, each followed by a map and fault lines."""
    chance = random.Random(seed)
    data_of, entered = [script(PLAIN)], []
    for _ in range(count):
        way, content = chance.randrange(8), declared(*(chance_symbol(chance) for _ in range(chance.randrange(4))))
        others = [name for name in (f"{n}.o" for n in range(6)) if name not in entered]
        if way < 3 and others or not entered:
            entered.insert(chance.randrange(len(entered) + 1), chance.choice(others))
            name = [name for name in entered if name in others][0]
            data_of.append(add(name, entered.index(name), content))
        elif way < 5:
            name = chance.choice(entered)
            entered.remove(name)
            data_of.append(remove(name))
        elif way == 5:
            data_of.append(replace(chance.choice(entered), content))
        elif way == 6:
            name, to = chance.choice(entered), chance.randrange(len(entered))
            entered.remove(name)
            entered.insert(to, name)
            data_of.append(move(name, to))
        else:
            data_of.append(script(chance.choice(GIVEN) + PLAIN))
        data_of += [MAP, FAULTS]
    return b"".join(data_of)
