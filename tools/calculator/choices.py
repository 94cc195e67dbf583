"""Rows for the corners of the rules: where two readings are possible, the one that is taken."""
from . import elf
from .build import DATA, Rel, Sec, Sym, build, object_a
from .edits import Options
from .rows import FAULTS, IMAGE, MAP, Row, add, at, has_lines, lacks, length, linked, move, refused, script, text

A = object_a()
ABS, COMMON, LOCAL, WEAK = elf.SHN_ABS, elf.SHN_COMMON, elf.STB_LOCAL, elf.STB_WEAK


def accepted(answer):
    """An edit that is accepted, with or without faults."""
    return answer.startswith(b"linked")


def data(name, content, alignment=1, flags=DATA, kind=elf.SHT_PROGBITS):
    """A section of these bytes (hexadecimal)."""
    return Sec(name, bytes.fromhex(content), flags, kind, alignment)


def given(title, text_of_script, objects, *steps, options=Options(), status=0):
    """A script, objects in order, then steps."""
    start = [(script(text_of_script), accepted)]
    start += [(add(name, number, content), accepted) for number, (name, content) in enumerate(objects)]
    return Row(title, start + list(steps), options, status)


def fault(title, text_of_script, *lines, objects=(), options=Options()):
    """A project whose link has these fault lines."""
    return given(title, text_of_script, objects, (FAULTS, text(*lines)), options=options, status=1)


def values(title, text_of_script, **symbols):
    """A script alone that gives symbols these values."""
    lines = [f"symbol {value:016x} {name} script" for name, value in sorted(symbols.items())]
    return given(title, text_of_script, [], (MAP, has_lines(*lines)))


def texts():
    """Texts of scripts and the refusal of each, 0 for none."""
    body = "SECTIONS { .d : { %s } }"
    return [
        ("} { {", 2), ("} { { x : y } }", 1), (body % "x = 1 } .e : { *(.e", 2), (body % "BYTE (1) BYTE /*c*/ (1)", 0),
        (body % "BYTE/*c*/(1)", 0), (body % "BYTE(1 *(.a) ;", 2), ("PROVIDE(a = 1) " * 2, 3), ("E" * 255 + "=1;", 0),
        (" ".join(f"PROVIDE(a{n} = 1)" for n in range(64)), 0), (" ".join(f"PROVIDE(a{n} = 1)" for n in range(65)), 5),
        ("; ".join(f"PROVIDE(a{n} = 1)" for n in range(65)), 0), (body % "PROVIDE(a = 1) ASSERT(1, \"x\") BYTE(1)", 0),
        (body % " ".join(f"PROVIDE(a{n} = 1)" for n in range(65)), 0), (body % ".-x = 1;", 2), (body % "\\. = 1;", 2),
        (body % "\\KEEP(.a)", 0), (body % "*(KEEP)", 2), (body % ". = (. + 4);", 0), (body % ". = (.) + 4;", 0),
        (body % ". = (ALIGN(8));", 0), (body % ". = ALIGN(ALIGN(8));", 0), (body % ". = ALIGN(. + 8);", 4),
        (body % ". = 4 + .;", 4), (body % ". = . + (4 + 4);", 0), (body % ". = . + ALIGN(8) - .;", 4),
        (body % ". = . + (ALIGN(8) - .);", 0), (body % ". += ALIGN(8) - .;", 0), (body % ". = . - 4;", 4),
        (body % ". = ADDR(.d);", 0), (body % "x = . + ALIGN(.);", 0), (body % "ASSERT(ALIGN(8), \"x\")", 4),
        (body % "ASSERT(ALIGN(8, 8), \"x\")", 0), (body % "PROVIDE(x = .)", 0), ("PROVIDE(x = .)", 4),
        ("SECTIONS { .a ALIGN(.) : AT(. + ALIGN(4)) ALIGN(ALIGN(8)) { } }", 0),
        ("SECTIONS { .a : ALIGN(8) AT(8) { } }", 2),
        ("SECTIONS { .a 1 ? 2 : 3 : { } }", 0), ("SECTIONS { .a 1 ? 2 : { } }", 2), ("SECTIONS { .a-4 : { } }", 0),
        ("SECTIONS { .a -4 : { } }", 0), ("SECTIONS { /DISCARD/ : { *(.a); } /DISCARD/ : { } }", 0),
        ("SECTIONS { /DISCARD/ : { BYTE(1) } }", 2), ("SECTIONS { /DISCARD/ 0 : { } }", 2),
        ("x = SIZEOF(/DISCARD/);", 2),
        ("SECTIONS { .a : { } = 0x90 .b : { } }", 0), ("SECTIONS { .a : { } =0x90K }", 2),
        ("x = 0x000000000000000000001;", 0),
        ("x = 000000000000000000000000000000001;", 0), ("x = 017777777777777777777777;", 5),
        ("x = 01777777777777777777777;", 0),
        ("x = 17592186044415M;", 0), ("x = 17592186044416M;", 5), ("x = 0X1fK;", 0), ("x = 1k;", 1), ("x = 1.;", 1),
        ("x = 1$;", 1), ("x = 1 ? 2 : 3 ? 4 : 5;", 0), ("x == 1;", 2), ("x += 1;", 2), ("x = y z;", 2),
        ("x = !~-1;", 0),
        ('ASSERT(1, "a\tb")', 1), ('ASSERT(1, "a\\")', 0), ('ASSERT(1, "")', 0), ("ASSERT(1)", 2), ("x = 1", 2),
        ("ENTRY(a-b) a-b = 1;", 0), ("ENTRY(.)", 2), ("ENTRY(AT)", 2), ("MEMORY { } SECTIONS { }", 0),
        ("MEMORY { ; }", 2),
        ("MEMORY { r (rx) : ORIGIN = 0, LENGTH = 1 }", 2), ("MEMORY { r : ORIGIN = 0 LENGTH = 1 }", 2),
        ("MEMORY { r : ORIGIN = 0, LENGTH = 1 r : ORIGIN = 0, LENGTH = 1 }", 3),
        ("MEMORY { r : ORIGIN = 0, LENGTH = ORIGIN(r) }", 3),
        ("x = ORIGIN(r); MEMORY { r : ORIGIN = 0, LENGTH = 1 }", 3),
        ("MEMORY { r : ORIGIN = 0, LENGTH = 1 q : ORIGIN = LENGTH(r), LENGTH = ALIGN(3, 4) }", 0),
        (body % "*([--a] [a--] [*?] [/])", 0), (body % "*([a)", 2), (body % "*(a\\)", 2), (body % "*(a\\ )", 1),
        (body % "*(\\])", 0),
        (body % "*(SORT(SORT(.a)))", 2), (body % "*(SORT(.a) .b)", 2), (body % "*(SORT())", 2), (body % "*()", 2),
        (body % "KEEP(KEEP(*(.a)))", 2), (body % "*(.a EXCLUDE_FILE(b [) .c)", 2),
        (body % "*(EXCLUDE_FILE(b c) .a)", 0),
        (body % "*(.a EXCLUDE_FILE([a-c].o) .b .c)", 0), (body % "KEEP(*(EXCLUDE_FILE(b) .a))", 0), ("\f", 1),
        ("\xa0", 1),
        ("SECTIONS { . += 4; . = . - 8; }", 0), ("SECTIONS { .a : { } >r AT>r }", 3), ("SECTIONS { .a : { } > r }", 3),
        ("x /* c */ = /**/ 1 /***/ ;", 0), ("x = 1; /*", 1), ("x = 6 /* 2 */ / 3;", 0), ("x = a*/b;", 2)]


def script_rows():
    """Each text by itself."""
    for one, number in texts():
        yield Row(f"text {one[:50]}", [(script(one), refused(5, number) if number else accepted),
                                       (script(""), linked(0, 376))])


def value_rows():
    """Values of expressions and where they stop."""
    yield values("operators",
                 "a = 2 + 3 * 4; b = 1 << 64; c = 1 << 63; d = -1 >> 63; e = 7 & 3 == 3; f = 1 ? 2 : 3 ? 4 : 5; "
                 "g = !5; h = ~0; i = 10 - 3 - 2; j = 100 / 10 / 5; k = 7 % 4; l = 2 < 1 || 3 >= 3 && 4 != 4; "
                 "m = 1 | 2 & 3;",
                 a=14, b=0, c=2 ** 63, d=1, e=1, f=2, g=0, h=2 ** 64 - 1, i=5, j=2, k=3, l=0, m=3)
    yield values("lazy", "a = 1 || nope; b = 0 && 1 / 0; c = 1 ? 2 : nope; d = 0 ? SIZEOF(.x) : 3;", a=1, b=0, c=2, d=3)
    yield values("alignment", "a = ALIGN(-1, 16); b = ALIGN(17, 16); c = ALIGN(0, 1 << 63);", a=0, b=32, c=0)
    for one, line in (("x = nope / 0;", "F4 1 nope"), ("x = 1 / 0 + nope;", "F5 1"), ("x =\n1 % 0;", "F5 1"),
                      ("\n x = ALIGN(nope, 3);", "F4 2 nope"), ("x = ALIGN(1, 0);", "F5 1"),
                      ("x = ALIGN(1 / 0, nope);", "F5 1"),
                      ("x = x + 1;", "F4 1 x"), ("x = y; y = 1;", "F4 1 y"), ("PROVIDE(y = 1); x = y;", "F4 1 y"),
                      ("MEMORY {\n r : ORIGIN = nope, LENGTH = 1 / 0 }", "F4 2 nope"),
                      ("MEMORY { r : ORIGIN = 0,\nLENGTH = 1 / 0 }", "F5 1"),
                      ("SECTIONS { .a SIZEOF(.a) : { } }", "F4 1 .a"),
                      ("SECTIONS { .a nope : AT(1 / 0) { } }", "F4 1 nope"),
                      ("SECTIONS {\n.a : ALIGN(0) { } }", "F5 2"),
                      ("SECTIONS { .a : AT(1 / 0) ALIGN(nope) { } }", "F5 1"),
                      ("SECTIONS { .a : { x = ADDR(.a); } }", "F4 1 .a"),
                      ("SECTIONS { .a ~0 : ALIGN(3) { BYTE(1) } }", "F5 1"),
                      ("SECTIONS { .a : { BYTE(nope) } }", "F4 1 nope"),
                      ("SECTIONS { .a ~0 : { \n BYTE(1 / 0) } }", "F5 2"),
                      ("SECTIONS { . = ~0; .a : ALIGN(2) { } }", "F8 1")):
        yield fault(f"fault of {one}", one, line)
    defined = build([data(".t", "00")], [Sym("f", 1)])
    yield fault("a name of an object", "x = f; SECTIONS { .a : { *(.t) } }", "F4 1 f", objects=[("a.o", defined)])
    yield given("a PROVIDE that isn't needed", "PROVIDE(x = 1 / 0);", [], (MAP, lacks("symbol")))
    yield fault("a PROVIDE that is", "PROVIDE(x = 1 / 0);", "F5 1",
                objects=[("a.o", build([], [Sym("x", binding=WEAK)]))])


def moving_rows():
    """The location counter."""
    yield values("outside, wrapping", "SECTIONS { . += ~0; x = .; . += 3; y = .; . = . - 1; z = .; }",
                 x=2 ** 64 - 1, y=2, z=1)
    body = "SECTIONS { . = 0x100; .a : { BYTE(1)\n %s } }"
    for one, line in ((". = 0;", "F6 2"), (". = 0x20; . = ALIGN(3);", "F5 2"), (". = . + ~0;", "F8 2"),
                      (". += ~0x100;", "F8 2"),
                      (". = ALIGN(1 << 63); . = ALIGN(1 << 63); BYTE(1) . = ALIGN(1 << 63);", "F6 2"),
                      (". = ~0;", "F8 2"),
                      (". = ADDR(.a);", "F4 2 .a"), (". += nope;", "F4 2 nope")):
        yield fault(f"inside: {one}", body % one, line)
    yield given("forms",
                "SECTIONS { . = 0x1000; .a : { . = 1; x = .; . = . + 2; y = .; . += . & 1; z = .; . = ALIGN(16); } "
                "w = .; }",
                [], (MAP, has_lines("symbol 0000000000001010 w script", "symbol 0000000000001001 x script",
                                    "symbol 0000000000001003 y script", "symbol 0000000000001004 z script")))
    yield given("an empty section", "SECTIONS { . = 0x11; .a : ALIGN(16) { *(.none) } x = .; }", [],
                (MAP, text("entry 0000000000000000",
                           "section .a 0000000000000020 0000000000000020 0000000000000000 r--",
                           "symbol 0000000000000020 x script")))
    pieces = build([data(".a", "", 64), data(".a", "AA", 4), data(".a", "", 1), data(".a", "BB", 8)])
    yield given("empty pieces and gaps", "SECTIONS { . = 0x1000; .a : { BYTE(7) *(.a) . += 2; BYTE(9) } =0x1122 }",
                [("a.o", pieces)],
                (IMAGE, at({4096: "07" + "1122" * 31 + "11 AA 1122112211 2211".replace("11 2211", "112211")})),
                (MAP, has_lines("piece 0000000000001040 0000000000000000 a.o .a",
                                "piece 0000000000001040 0000000000000001 a.o .a")))
    yield given("data that is cut", "SECTIONS { . = 0x1000; .a : { BYTE(-1) SHORT(0x12345) LONG(1 << 32) QUAD(-2) } }",
                [],
                (IMAGE, at({4096: "FF 4523 00000000 FEFFFFFFFFFFFFFF"})))


def region_rows():
    """Regions and load addresses."""
    memory = "MEMORY { r : ORIGIN = 0x1000, LENGTH = 0x100 q : ORIGIN = 0x8000, LENGTH = 0x10 } SECTIONS { "
    lines = lambda *found: (MAP, has_lines(*(f"section {name} {start:016x} {load:016x} {size:016x} {flags}"
                                             for name, start, load, size, flags in found)))
    yield given("a region goes back with an address", memory
                + ".a : { BYTE(1) } >r .b 0x1080 : { BYTE(1) } >r .c : { BYTE(1) } >r .d 0x1010 : { BYTE(1) } >r "
                ".e : { BYTE(1) } >r }",
                [], (MAP, has_lines("section .c 0000000000001081 0000000000001081 0000000000000001 r--")),
                (MAP, has_lines("section .e 0000000000001011 0000000000001011 0000000000000001 r--")))
    yield given("both in one region", memory + ".a : { QUAD(1) } >r AT>r .b : { QUAD(1) } >r AT>r }", [],
                lines((".a", 0x1000, 0x1000, 8, "r--"), (".b", 0x1008, 0x1008, 8, "r--")))
    yield given("an aligned load address",
                memory + ".a : { BYTE(1) } AT>q .b : ALIGN(8) { BYTE(1) } AT>q .c : { BYTE(1) } }", [],
                lines((".a", 0, 0x8000, 1, "r--"), (".b", 8, 0x8008, 1, "r--"), (".c", 9, 0x8009, 1, "r--")))
    yield given("the difference goes on",
                "SECTIONS { .a : AT(0x100) { BYTE(1) } .b : { BYTE(1) } .c 0x50 : { BYTE(1) } "
                ".d : { BYTE(1) } }", [],
                lines((".a", 0, 0x100, 1, "r--"), (".b", 1, 0x101, 1, "r--"), (".c", 0x50, 0x50, 1, "r--"),
                      (".d", 0x51, 0x51, 1, "r--")))
    yield given("an empty section counts", "SECTIONS { .a : AT(0x100) { } .b : { BYTE(1) } }", [],
                lines((".a", 0, 0x100, 0, "r--"), (".b", 0, 0x100, 1, "r--")))
    yield fault("a full load region", memory + ".a : { . = 0x11; BYTE(1) } >r AT>q }", "F7 .a q")
    yield fault("below its region", memory + ".a 0x10 : { BYTE(1) } >r AT>q }", "F7 .a r")
    yield given("room without load size", memory + ".a : { . = 0x11; } >r AT>q }", [],
                lines((".a", 0x1000, 0x8000, 0x11, "rw-")))
    yield fault("load end", "SECTIONS { \n.a : AT(~0) { BYTE(1) } }", "F8 2")
    yield fault("load addresses meet",
                "SECTIONS { .a : AT(8) { QUAD(1) } .b : AT(15) { QUAD(1) } .c : AT(0) { LONG(1) } }",
                "F10 .b .a")
    yield fault("the first that it meets",
                "SECTIONS { .a 0 : { QUAD(1) } .b 8 : { QUAD(1) } .c 7 : AT(99) { QUAD(1) } }", "F9 .c .a")
    yield fault("an image too long", "SECTIONS { .a : { BYTE(1) . += 0x10000000; } }",
                f"F11 {length(4096 + 1 + 2 ** 28, ['.a'])}")


def name_rows():
    """Decisions and what they bring."""
    script_names = build([data(".t", "00" * 8)], [Sym("x", binding=WEAK), Sym("y", COMMON, 8, 8)], [Rel(1, 0, 1, "x")])
    yield given("the script over weak and common", "x = 5; y = 6; SECTIONS { . = 0x1000; .t : { *(.t) } }",
                [("a.o", script_names)],
                (IMAGE, at({4096: "05" + "00" * 7})), (MAP, has_lines("symbol 0000000000000006 y script")))
    yield fault("an entry that only a PROVIDE gives", "ENTRY(x) PROVIDE(x = 1);", "F2 x")
    strong = build([data(".t", "00")], [Sym("f", 1), Sym("g", 1)])
    yield fault("duplicates by object and symbol", "ENTRY(nope) f = 1; SECTIONS { .t : { *(.t) } }", "F1 f a.o script",
                "F1 f b.o script", "F1 g b.o a.o", "F2 nope", objects=[("a.o", strong), ("b.o", strong)])
    unlinked = build([data(".t", "00" * 8), Sec(".debug", b"\0" * 4, 0)], [Sym("d", 2, 1)], [Rel(1, 0, 1, "d")])
    yield fault("a symbol outside the output", "SECTIONS { .t : { *(.t) } }", "F13 a.o .t 0000000000000000 1",
                objects=[("a.o", unlinked)])
    yield fault("an entry outside the output", "ENTRY(d) SECTIONS { .t : { *(.t) } }", "F13 entry",
                "F13 a.o .t 0000000000000000 1", objects=[("a.o", unlinked)])
    quiet = build([data(".t", "00" * 8), Sec(".debug", b"\0" * 4, 0)], [Sym("d", 2, 1)], [Rel(1, 0, 0, "d")])
    yield given("hyphens", "SECTIONS { .t : { *(.t) } }", [("a.o", quiet)],
                (MAP, has_lines("symbol ---------------- d a.o")),
                (IMAGE, lambda answer: answer.startswith(b"bytes %d\n" % length(4104, [".t"]))))
    yield given("every pattern takes commons", "SECTIONS { .t : { *(*) } }",
                [("a.o", build([], [Sym("c", COMMON, 4, 4)]))],
                (MAP, has_lines("piece 0000000000000000 0000000000000004 a.o COMMON")))
    yield given("a common with no size", "SECTIONS { }", [("a.o", build([], [Sym("c", COMMON, 4, 0)]))],
                (MAP, has_lines("symbol ---------------- c a.o")))
    both = [("a.o", build([], [Sym("c", COMMON, 4, 4)])),
            ("b.o", build([data(".t", "00")], [Sym("c", 1, binding=WEAK)]))]
    yield given("a common over a weak one", "SECTIONS { .t : { *(*) } }", both,
                (MAP, has_lines("symbol 0000000000000000 c a.o")))
    yield Row("an entry option with an empty name", [(FAULTS, text("F2 "))], Options(entry=""), 1)
    asserted = 'ASSERT(%s, "m") SECTIONS { .t : { *(.t) } /DISCARD/ : { *(.x) } .u : { } }'
    given_object = [("a.o", build([data(".t", "00"), data(".x", "00")], [Sym("t", 1, 3), Sym("x", 2)]))]
    for condition, good in (("t == 3", 1), ("x", 0), ("1 || x", 1), ("nope == 0", 0), ("SIZEOF(.u) == 0", 1),
                            ("SIZEOF(.v) == 0", 0), ("0", 0), ("1 / 0", 0), ("ADDR(.u) == 1 && LOADADDR(.u)", 1),
                            ("0 && nope", 0)):
        yield given(f"ASSERT of {condition}", asserted % condition, given_object,
                    (FAULTS, text() if good else text("F15 1 m")), status=1 - good)


def gathering_rows():
    """Liveness and order."""
    parts = build([data(".t", "00" * 8), data(".u", "01"), data(".v", "02")], [Sym("s", 1), Sym("v", 3)],
                  [Rel(1, 0, 0, "v")])
    collect = Options(gc=True)
    yield given("NONE is a step", "ENTRY(s) SECTIONS { . = 0x1000; .a : { *(.t) *(.u) *(.v) } }", [("a.o", parts)],
                (IMAGE, at({4096: "00" * 8 + "02"})), (MAP, lacks(" a.o .u")), options=collect)
    yield given("KEEP under /DISCARD/", "SECTIONS { .a : { *(.v) *(.u) } /DISCARD/ : { KEEP(*(.t)) } }",
                [("a.o", parts)],
                (MAP, lacks("piece")), options=collect)
    yield given("an orphan that isn't live", "ENTRY(v) SECTIONS { .a : { *(.v) } }", [("a.o", parts)],
                (FAULTS, text()), options=collect)
    yield fault("an orphan that is", "ENTRY(s) SECTIONS { .a : { *(.v) } }", "F3 a.o .t", objects=[("a.o", parts)],
                options=collect)
    order = build([data(".b", "01", 4), data(".a", "02", 8), data(".b", "03", 8), data(".a", "04", 0)],
                  [Sym("z", COMMON, 8, 0)])
    two = [("x.o", order), ("a.o", order)]
    lines = lambda *found: (MAP, lambda answer: [line.split(b" ", 3)[3].decode() for line in answer.split(b"\n")
                                                 if line.startswith(b"piece")] == list(found))
    yield given("sorted by name", "SECTIONS { .d : { *(SORT(.? COMMON)) } }", two,
                lines("x.o .a", "x.o .a", "a.o .a", "a.o .a", "x.o .b", "x.o .b", "a.o .b", "a.o .b", "x.o COMMON"))
    yield given("sorted by alignment", "SECTIONS { .d : { *(SORT_BY_ALIGNMENT(* .b)) } }", two,
                lines("x.o .a", "x.o .b", "x.o COMMON", "a.o .a", "a.o .b", "x.o .b", "a.o .b", "x.o .a", "a.o .a"))
    yield given("after a move", "SECTIONS { .d : { *(.b *) } }", two, (move("a.o", 0), accepted),
                lines("a.o .b", "a.o .a", "a.o .b", "a.o .a", "a.o COMMON", "x.o .b", "x.o .a", "x.o .b", "x.o .a"))


def segment_rows():
    """Which sections share a segment, and the headers."""
    parts = build([data(".a", "01"), data(".b", "02"), data(".c", "03", 1, elf.SHF_ALLOC),
                   Sec(".z", b"", DATA, elf.SHT_NOBITS, 1, 4)])
    four = [("a.o", parts)]
    count = lambda found: (IMAGE, lambda answer: elf.number(answer, answer.index(b"\n") + 1 + 56, 2) == found)
    start = "SECTIONS { . = 0x1000; .a : { *(.a) } %s }"
    for rest, found in ((". = 0x2000; .b : { *(.b) } .c : { *(.c) } .z : { *(.z) }", 3),
                        ("/DISCARD/ : { *(.b .c .z) }", 1),
                        (". = 0x2000; .b : { *(.b) } /DISCARD/ : { *(.c .z) }", 1),
                        (". = 0x2001; .b : { *(.b) } /DISCARD/ : { *(.c .z) }", 2),
                        (".z : { *(.z) } .b : { *(.b) } /DISCARD/ : { *(.c) }", 2),
                        (".b : { *(.b) } .z : { *(.z) } /DISCARD/ : { *(.c) }", 1),
                        (".b : AT(0x9000) { *(.b) } /DISCARD/ : { *(.c .z) }", 2),
                        (". = 0; .b : { *(.b) } /DISCARD/ : { *(.c .z) }", 2),
                        (".e : { } .b : { *(.b) } /DISCARD/ : { *(.c .z) }", 1)):
        yield given(f"segments of {rest}", start % rest, four, count(found))


# An object with sections 1 `.text`, 2 `.bss`, 3 `.debug` (not allocated), 4 the symbols, 5 their names, 6 and 7 the
# relocations of 1 and 3, 8 the section names; and with symbols 1 local, 2 global, 3 common.
WHOLE = build([data(".text", "00" * 8), Sec(".bss", b"", DATA, elf.SHT_NOBITS, 1, 16), Sec(".debug", bytes(8), 0)],
              [Sym("l", 1, 0, 0, LOCAL), Sym("g", 1, 4), Sym("c", COMMON, 8, 24)],
              [Rel(1, 0, 10, "g"), Rel(1, 4, 10, "g"), Rel(3, 0, 10, "g")])
NAME, KIND, FLAGS, OFFSET, SIZE, LINK, INFO, LEAST, ENTRY_SIZE = (
    (0, 4), (4, 4), (8, 8), (24, 8), (32, 8), (40, 4), (44, 4), (48, 8), (56, 8))
ST_NAME, ST_INFO, ST_SECTION, ST_VALUE, ST_SIZE = (0, 4), (4, 1), (6, 2), (8, 8), (16, 8)
R_OFFSET, R_TYPE, R_SYMBOL = (0, 8), (8, 4), (12, 4)


def header(at, field, value):
    """A field of section header `at` set."""
    return elf.number(WHOLE, 40, 8) + 64 * at + field[0], field[1], value


def entry(table, at, field, value):
    """A field of an entry of the table in section `table` set."""
    start = elf.number(WHOLE, elf.number(WHOLE, 40, 8) + 64 * table + OFFSET[0], 8)
    return start + 24 * at + field[0], field[1], value


def objects_changed():
    """Changes of the whole object and the refusal of each, 0 for none."""
    symbol = lambda *change: entry(4, *change)
    field = lambda *change: entry(6, *change)
    most = 2 ** 31
    return [
        ([], 0), ([(0, 1, 0), (60, 2, 0)], 2), ([(4, 1, 1)], 3), ([(7, 1, 9), (48, 4, 7), (52, 2, 9), (24, 8, 5)], 0),
        ([(60, 2, 0), (40, 8, 2 ** 60)], 4), ([(60, 2, 0)], 5), ([(62, 2, 9)], 5), ([(62, 2, 0)], 6), ([(62, 2, 5)], 7),
        ([header(1, OFFSET, len(WHOLE))], 6), ([header(2, OFFSET, 2 ** 63)], 0), ([header(2, SIZE, most)], 0),
        ([header(2, SIZE, most + 1)], 6), ([header(3, LEAST, 3)], 6), ([header(3, LEAST, 0)], 0),
        ([header(3, LEAST, 2 ** 63)], 0), ([header(3, OFFSET, len(WHOLE)), header(3, SIZE, 0), header(7, INFO, 0)], 0),
        ([header(3, OFFSET, len(WHOLE) + 1), header(3, SIZE, 0)], 6),
        ([header(0, OFFSET, 2 ** 63), header(0, LEAST, 3)], 0),
        ([header(1, FLAGS, 0x202)], 7), ([header(3, FLAGS, 0x200)], 0), ([header(1, FLAGS, 0x32)], 0),
        ([header(1, NAME, 0)], 7), ([header(3, NAME, 2 ** 32 - 1)], 0), ([header(1, NAME, 2 ** 32 - 1)], 7),
        ([header(1, KIND, 5)], 7), ([header(3, KIND, 5)], 0), ([header(4, FLAGS, 2)], 7), ([header(1, KIND, 0)], 0),
        ([header(3, KIND, 2)], 8), ([header(4, INFO, 0)], 8), ([header(4, INFO, 1)], 8), ([header(4, INFO, 3)], 8),
        ([header(4, INFO, 5)], 8), ([header(4, ENTRY_SIZE, 25)], 8), ([header(4, SIZE, 0)], 8),
        ([header(4, SIZE, 95)], 8),
        ([header(4, LINK, 0)], 8), ([header(4, LINK, 3)], 8), ([header(4, LINK, 9)], 8), ([header(4, LINK, 8)], 0),
        ([symbol(1, ST_INFO, 0x30)], 8), ([symbol(2, ST_INFO, 0x30)], 9), ([symbol(2, ST_INFO, 0x16)], 9),
        ([symbol(2, ST_INFO, 0x13)], 9), ([symbol(2, ST_INFO, 0x14)], 9), ([symbol(2, ST_INFO, 0x15)], 0),
        ([symbol(1, ST_INFO, 3)], 0), ([symbol(1, ST_INFO, 4), symbol(1, ST_SECTION, ABS)], 0),
        ([symbol(1, ST_INFO, 6)], 9),
        ([symbol(1, ST_SECTION, 0)], 9), ([symbol(1, ST_SECTION, COMMON)], 9), ([symbol(1, ST_NAME, 2 ** 31)], 0),
        ([symbol(2, ST_SECTION, 9)], 9), ([symbol(2, ST_SECTION, 8)], 0), ([symbol(2, ST_SECTION, 0xFFFF)], 9),
        ([symbol(2, ST_NAME, 0)], 9), ([symbol(2, ST_NAME, 2 ** 31)], 9), ([symbol(0, ST_INFO, 0xFF)], 0),
        ([symbol(3, ST_INFO, 0x20)], 9), ([symbol(3, ST_VALUE, 0)], 9), ([symbol(3, ST_VALUE, 6)], 9),
        ([symbol(3, ST_VALUE, 2 ** 63)], 0), ([symbol(3, ST_SIZE, most)], 0), ([symbol(3, ST_SIZE, most + 1)], 9),
        ([header(6, INFO, 9)], 10), ([header(7, INFO, 9)], 10), ([header(7, INFO, 0)], 0), ([header(7, INFO, 1)], 10),
        ([header(7, ENTRY_SIZE, 1)], 0), ([header(7, KIND, 9)], 0), ([header(6, KIND, 9)], 10),
        ([header(6, SIZE, 47)], 10),
        ([header(6, SIZE, 0)], 0), ([header(6, ENTRY_SIZE, 16)], 10), ([header(6, LINK, 5)], 10),
        ([field(0, R_SYMBOL, 4)], 10),
        ([field(0, R_SYMBOL, 0)], 0), ([field(0, R_TYPE, 3)], 11), ([entry(7, 0, R_TYPE, 99)], 0),
        ([field(1, R_TYPE, 9)], 11),
        ([header(6, INFO, 2)], 12), ([header(6, INFO, 2), header(6, SIZE, 0)], 0), ([field(1, R_OFFSET, 5)], 12),
        ([field(1, R_OFFSET, 2 ** 64 - 1)], 12), ([field(1, R_TYPE, 0), field(1, R_OFFSET, 8)], 0),
        ([field(1, R_TYPE, 0), field(1, R_OFFSET, 9)], 12), ([field(1, R_OFFSET, 3)], 13),
        ([field(1, R_OFFSET, 0)], 13),
        ([field(1, R_TYPE, 0), field(1, R_OFFSET, 2)], 0), ([field(0, R_OFFSET, 4), field(1, R_OFFSET, 0)], 0),
        ([field(0, R_OFFSET, 4), field(1, R_OFFSET, 1)], 13), ([field(0, R_TYPE, 1)], 13),
        ([header(6, INFO, 3)], 0), ([header(4, KIND, 1), header(6, SIZE, 0)], 10)]


def object_rows():
    """Each change by itself, added with all orphans discarded."""
    for changes, number in objects_changed():
        given_object = bytearray(WHOLE)
        for place, size, value in changes:
            given_object[place:place + size] = elf.spell(value, size)
        yield Row(f"object {changes}",
                  [(add("a.o", 0, bytes(given_object)), refused(4, number) if number else accepted)],
                  Options(orphans="discard"))


GROUPS = (("scripts", script_rows), ("objects", object_rows), ("values", value_rows), ("moving", moving_rows),
          ("regions", region_rows), ("names", name_rows), ("gathering", gathering_rows), ("segments", segment_rows))
"""The rows for corners, by what they are of, in their order."""
