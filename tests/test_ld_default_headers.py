"""The program headers of a script without PHDRS, beside GNU ld's."""
from __future__ import annotations

from tests.beside import START, BesideTest
from tests.images import Segment, read_image
from tests.linking import LinkTest, needs

SOURCE = """
.globl _start
.section .text,"ax"
_start: call more
 ret
.section .text.more,"ax"
more: ret
.section .rodata,"a"
.balign 64
 .quad table
.section .data,"aw"
 .balign 16
table: .quad _start, 1, 2
.section .late,"aw"
 .quad 3
.section .bss,"aw",@nobits
 .zero 100
.section .note.one,"a",@note
 .long 4, 4, 1, 0x41, 1
.section .note.GNU-stack,"",@progbits
"""
BODY = """.text : { *(.text*) } %s .note.one : { *(.note.one) } .rodata : { *(.rodata) } %s .data : { *(.data) }
    .bss : { *(.bss) } %s .late : { *(.late) } }"""
NEAR = "ENTRY(_start) SECTIONS { . = 0x100000; " + BODY % ("", "", "")
PAGES = "ENTRY(_start) SECTIONS { . = 0x100000; " + BODY % ((". = ALIGN(4096);",) * 3)
FAR = "ENTRY(_start) SECTIONS { . = 0x100000; " + BODY % (". = 0x103000;", ". = 0x1000000;", ". = 0x1000fff;")
ROOM = "ENTRY(_start) SECTIONS { . = 0x100000 + SIZEOF_HEADERS; " + BODY % ("", "", "")
APART = "ENTRY(_start) SECTIONS { . = 0x100400; " + BODY % ("", ". = ALIGN(4096);", "")
LOADED = """ENTRY(_start) SECTIONS { .text 0x100000 : AT(0x200000) { *(.text*) } .rodata : { *(.rodata) *(.note.one) }
    .data 0x400000 : AT(LOADADDR(.rodata) + SIZEOF(.rodata)) { *(.data .late) } .bss : { *(.bss) } }"""
REGIONS = """MEMORY { rom : ORIGIN = 0x100000, LENGTH = 64K ram : ORIGIN = 0x110000, LENGTH = 64K } ENTRY(_start)
SECTIONS { .text : { *(.text*) } >rom .rodata : { *(.rodata) *(.note.one) } >rom .data : { *(.data .late) } >ram AT>rom
    .bss : { *(.bss) } >ram }"""
EMPTY = """ENTRY(_start) SECTIONS { . = 0x100000; .none : { none = .; } . = 0x100100; .text : { *(.text*) }
    .data : { *(.data) } .bss : { *(.bss) } . += 64; .end (NOLOAD) : { . += 8; }
    .rest : { *(.rodata) *(.late) *(.note.one) } }"""
SCRIPTS = {"near": NEAR, "pages": PAGES, "far": FAR, "room": ROOM, "apart": APART, "loaded": LOADED, "regions": REGIONS,
           "empty": EMPTY}
WORDS: tuple[tuple[str, ...], ...] = (
    (), ("-n",), ("-N",), ("-z", "noseparate-code"), ("-z", "max-page-size=0x200000"), ("-z", "max-page-size=0x200"),
    ("-z", "common-page-size=0x8000"), ("-z", "execstack"), ("-z", "stack-size=0x10000"), ("-z", "norelro"))


@needs("ld.bfd")
class SegmentsTest(LinkTest):
    """Types, rights, places in the file and in memory, sizes and alignments are GNU ld's, in its order."""

    def setUp(self) -> None:
        """Assembles the source."""
        super().setUp()
        self.compile("one.s", SOURCE)
        self.compile("without.s", SOURCE.replace('.section .note.GNU-stack,"",@progbits', ""))

    def segments(self, name: str) -> list[Segment]:
        """The program headers of an image."""
        return read_image((self.folder / name).read_bytes()).segments

    def both(self, *words: str) -> None:
        """Links by both."""
        self.run_tool("ld.bfd", "--no-warn-rwx-segments", "--no-warn-execstack", *words, "-o", "gnu")
        self.links(*words, "-o", "own")
        self.assertEqual(self.segments("own"), self.segments("gnu"))

    def test_scripts(self) -> None:
        """Sections in one page, on pages of their own, far apart, loaded elsewhere, in regions, empty."""
        for name, script in SCRIPTS.items():
            self.write("image.ld", script)
            for words in WORDS:
                for one in ("one.o", "without.o") if name == "near" else ("one.o",):
                    with self.subTest(script=name, words=words, object=one):
                        self.both("-T", "image.ld", *words, one)

    def test_default_script(self) -> None:
        """Under the default script."""
        for words in WORDS:
            with self.subTest(words=words):
                self.both(*words, "one.o")

    def test_interpreter(self) -> None:
        """PT_PHDR and PT_INTERP."""
        self.compile("two.s", ".section .interp,\"a\"\n.asciz \"/lib/ld.so\"\n.section .note.GNU-stack\n")
        self.write("image.ld", "ENTRY(_start) SECTIONS { . = 0x100000 + SIZEOF_HEADERS; .interp : { *(.interp) } " +
                   BODY % ("", "", ""))
        self.both("-T", "image.ld", "one.o", "two.o")

    def test_unpaged(self) -> None:
        """One segment with all rights, with `-N` and where all lies in one page."""
        self.write("image.ld", PAGES)
        self.both("-N", "-T", "image.ld", "one.o")
        self.assertEqual([(one.kind, one.rights) for one in self.segments("own")][0], (1, 7))


HEADS = """.section .interp,"a"
.asciz "/lib/interpreter"
.section .note.one,"a",@note
.balign 4
.long 4, 0, 1
.asciz "one"
.section .note.two,"a",@note
.balign 4
.long 4, 0, 2
.asciz "two"
.section .note.wide,"a",@note
.balign 8
.long 8, 0, 3
.asciz "wide..."
.section .data.rel.ro,"aw"
.quad _start
.data
.quad 5
.section .note.GNU-stack,"",@progbits
"""


@needs("ld.bfd")
class ProgramHeadersTest(BesideTest):
    """Program headers, where the headers of the file are in memory."""

    def test_default_script(self) -> None:
        """PT_PHDR, PT_INTERP, PT_NOTE, PT_GNU_STACK, PT_GNU_RELRO, as GNU ld writes them."""
        self.compile("heads.s", START + HEADS)
        self.compile("plain.s", START + HEADS[HEADS.index(".section .data"):])
        self.compile("image.s", ".globl more\nmore: .long 1\n")
        self.must("ld.bfd", "-e", "0", "image.o", "-o", "image")
        for words in (("heads.o",), ("plain.o",), ("heads.o", "-z", "norelro"), ("heads.o", "-z", "execstack"),
                      ("heads.o", "-z", "noseparate-code"), ("-R", "image", "heads.o"), ("plain.o", "image.o")):
            self.assertEqual(*(image.segments for image in self.both(*words)), words)
