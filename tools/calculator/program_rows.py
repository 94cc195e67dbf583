"""Rows for the two programs: command lines of a stream as they are spelled, whole sessions, and links of files.

Each answer, line and status that stands here was worked out by hand.
"""
from dataclasses import dataclass

from . import elf, program
from .build import Rel, Sec, Sym, build, object_a
from .edits import Options
from .rows import FAULTS, IMAGE, MAP, Row, add, linked, move, refused, remove, replace, script, text

A = object_a()
T = "SECTIONS { . = 0x401000; .text : { *(.text) } }"
OPEN = script(T), linked(0, 448)
OBJECT_MAP = ["entry 0000000000000000", "section .text 0000000000401000 0000000000401000 0000000000000004 r-x",
              "piece 0000000000401000 0000000000000004 a.o .text"]

# Lines that begin a command, each with its answer in the empty project, and lines that begin none.
LINES = [
    (b"add a.o 1 0\n", refused(3)),
    (b"add a 18446744073709551615 0\n", refused(3)),
    (b"add \xff\r\t 1 0\n", refused(3)),
    (b"add \xff 0 0\n", refused(6)),
    (b"replace a.o 0\n", refused(2)),
    (b"move a.o 18446744073709551615\n", refused(2)),
    (b"remove a.o\n", refused(2)),
    (b"script 0\n", linked(0, 376)),
    (b"faults\n", text()),
    (b"map\n", text("entry 0000000000000000")),
    (b"add " + b"n" * 504 + b" 0 0\n", refused(6)),  # 512 bytes before the line feed
]
NO_LINES = [
    b"add a.o 01 0\n", b"add a.o 0 00\n", b"add  0 0\n", b"add a.o 0 0 \n", b"add a.o 0\n", b"add a\no 0 0\n",
    b"add a.o 0 67108865\n", b"add a 18446744073709551616 0\n", b"ADD a.o 0 0\n", b"replace a.o 0 0\n",
    b"move a.o\n", b"move a.o 18446744073709551616\n", b"remove\n", b"remove a.o 0\n", b"script +5\n", b"image \n",
    b"maps\n", b"\n",
    b"add " + b"n" * 505 + b" 0 0\n",  # one byte more
]


def line_rows():
    """Streams of one line."""
    for line, answer in LINES:
        yield Row(f"line {line[:30]!r}", [(line, answer)])
    for line in NO_LINES:
        yield Row(f"line {line[:30]!r}", [], status=2, end=line)


def session_rows():
    """Streams that are answered through all devices: all commands, refusals, bad tails."""
    yield Row("nothing", [])
    yield Row("an orphan", [(add("a.o", 0, A), linked(1)), (IMAGE, text()), (MAP, text()),
                            (FAULTS, text("F3 a.o .text"))], status=1)
    yield Row("every command", [
        OPEN, (add("a.o", 0, A), linked(0, 4488)), (MAP, text(*OBJECT_MAP)), (FAULTS, text()),
        (replace("a.o", A), linked(0, 4488)), (move("a.o", 0), linked(0, 4488)), (remove("a.o"), linked(0, 448)),
        (MAP, text("entry 0000000000000000",
                   "section .text 0000000000401000 0000000000401000 0000000000000000 r--"))])
    yield Row("refusals", [
        OPEN, (add("a.o", 0, A), linked(0, 4488)), (add("a.o", 0, A), refused(1)), (add("b.o", 2, b""), refused(3)),
        (replace("b.o", b""), refused(2)), (move("b.o", 9), refused(2)), (move("a.o", 1), refused(3)),
        (remove("b.o"), refused(2)), (replace("a.o", b"\x7f"), refused(4, 1)), (script("~"), refused(5, 2)),
        (MAP, text(*OBJECT_MAP))])
    yield Row("a cut payload", [], status=2, end=b"script 5\nSECT")
    yield Row("a bad line", [(script(""), linked(0, 376))], status=2, end=b"bad\n" + IMAGE)


@dataclass(frozen=True)
class Link:
    """A link of files: a script, objects under their words, the status, what stands on standard error, and the map."""
    title: str
    script: str
    objects: list
    status: int = 0
    said: bytes = b""
    map: bytes = b""
    options: Options = Options()


def lines(*found):
    """The text of these lines."""
    return elf.data_of("".join(line + "\n" for line in found))


LINKS = [
    Link("one object", T, [("a.o", A)], map=lines(*OBJECT_MAP)),
    Link("no files but an empty script", "", [], map=lines("entry 0000000000000000")),
    Link("an orphan", "", [("a.o", A)], 1, b"F3 a.o .text\n"),
    Link("a discarded orphan", "", [("a.o", A)], map=lines("entry 0000000000000000"),
         options=Options(orphans="discard")),
    Link("one word twice", T, [("a.o", A), ("b.o", A), ("a.o", A)], 2, b"a.o: refused 1 0\n"),
    Link("a word that is no name", T, [("a.o", A), ("a b.o", A)], 2, b"a b.o: refused 6 0\n"),
    Link("a script and an object refused", "SECTIONS", [("a.o", A), ("a.o", A)], 2, b"script: refused 5 2\n"),
    Link("an object that is none", T, [("a.o", A), ("b.o", A[:63])], 2, b"b.o: refused 4 1\n"),
]


def link_cases(result):
    """The links of files, by the calculator."""
    for row in LINKS:
        found = program.link_contents(elf.data_of(row.script), row.objects, row.options)
        if isinstance(found, tuple):
            word, refusal = found
            given = 2, elf.data_of(f"{word}: refused {refusal.number} {refusal.inner}\n"), b""
        else:
            given = found.status, found.faults, found.map
        result.check(given == (row.status, row.said, row.map), f"{row.title}: {given}")


# What the public calls of single crates make of T and this object: a call of a name that the object defines itself.
CALLS = build([Sec(".text", bytes.fromhex("90 90 E8 00 00 00 00"))], [Sym("f", 1, 1)], [Rel(1, 3, 2, "f", -4)])
SEEN = (""".text 90 90 e8 00 00 00 00
f is symbol 1
matches true
taken by 0
Strong(Entry { object: ObjectKey(0), symbol: SymbolIndex(1) })
Undefined
known 0
placed 401000 7 401000
"""
        # the ELF header: the entry, one program header, no section headers but those of five sections
        " 7f 45 4c 46 02 01 01 00 00 00 00 00 00 00 00 00 02 00 3e 00 01 00 00 00 01 10 40 00 00 00 00 00"
        " 40 00 00 00 00 00 00 00 00 00 00 00 00 00 00 00 00 00 00 00 40 00 38 00 01 00 40 00 05 00 04 00"
        # the program header: loaded, readable and executable, at offset 0x1000 and address 0x401000, 7 bytes
        " 01 00 00 00 05 00 00 00 00 10 00 00 00 00 00 00 00 10 40 00 00 00 00 00 00 10 40 00 00 00 00 00"
        " 07 00 00 00 00 00 00 00 07 00 00 00 00 00 00 00 00 10 00 00 00 00 00 00\n"
        # 0x401010 - 4 - 0x401001
        " 0b 00 00 00\n"
        "a site true false\n"
        "counted: objects 1 names 2 pieces 1 relocations 1 bytes 4\n").encode()


def all_rows():
    """All rows that are streams."""
    yield from line_rows()
    yield from session_rows()
