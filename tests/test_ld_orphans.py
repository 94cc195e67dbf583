"""Input sections that no statement of the script takes: placed as GNU ld places them."""
from __future__ import annotations

import os
import re
import unittest

from tests.images import PT_LOAD, Image, read_image
from tests.programs import Done, OutsideTest, needs

SCRIPT = """ENTRY(_start)
SECTIONS {{ . = 0x400000; .text : {{ *(.text) }} {middle} .data : {{ *(.data) }} {end}
           /DISCARD/ : {{ *(.note.GNU-stack .eh_frame .comment) }} }}
{after}
"""
START = """.globl _start
_start: mov $value, %eax
.data
.globl value
value: .long 1
.section table,"a"
.balign 8
.quad value
.section .rodata,"a"
.byte 1, 2, 3
.section .fast,"ax"
.balign 16
.globl fast
fast: nop
.section .more,"aw"
.balign 4
.long __start_table, __stop_table
.bss
.skip 12
.section .zero,"aw",@nobits
.balign 32
.skip 5
.section .empty,"a"
.globl nothing
nothing:
"""
OTHER = """.section table,"aw"
.long 5, 6
.section .more,"a"
.byte 1
.section .note.mine,"a",@note
.long 4, 4, 1, 0, 0
.section .later,"ax"
nop
.data
.byte 7
.section .init_array.5,"aw"
.quad 1
.comm block, 24, 16
"""


@needs("ld.bfd")
class OrphansTest(OutsideTest):
    """Links whose script takes only a part."""

    def setUp(self) -> None:
        """Two objects."""
        super().setUp()
        self.compile("a.s", START)
        self.compile("b.s", OTHER)

    def script(self, middle: str = "", end: str = "", after: str = "", before: str = "") -> None:
        """Writes the script."""
        self.write("t.ld", before + SCRIPT.format(middle=middle, end=end, after=after))

    def both(self, *words: str) -> Done:
        """Links by both; the images have the same sections, bytes and symbols, and nothing is said but of the
        orphans."""
        self.must("ld.bfd", *words, "-o", "gnu")
        done = self.links(*words, "-o", "own", env={"LDI_FALLBACK": "none"})
        gnu, own = self.image("gnu"), self.image("own")
        self.assertEqual(sorted(own.places()), sorted(gnu.places()), words)
        self.assertEqual({name: own.symbols.get(name) for name in gnu.symbols}, gnu.symbols)
        self.assertEqual(own.entry, gnu.entry)
        self.assertNotIn("changed", done.stderr)
        return done

    def image(self, name: str) -> Image:
        """An image in the folder."""
        return read_image(self.read(name))

    def test_kinds(self) -> None:
        """After the last section of their kind, and those of one name in one: beside assignments, ALIGN and an end."""
        for middle, end, after in (("", "", ""), (". = ALIGN(4096);", "end = .; PROVIDE(_end = .);", ""),
                                   ("here = .;", ".last : { *(.later) }", "size = SIZEOF(.fast);"),
                                   (".rodata : { *(.other) }", ". = ALIGN(64); .bss : { *(.bss) }", "x = ADDR(table);"),
                                   (". = . + 0x100; .more : { LONG(1) }", ". = . + 16;", "")):
            for objects in (("a.o", "b.o"), ("b.o", "a.o"), ("a.o",)):
                with self.subTest(middle=middle, objects=objects):
                    self.script(middle, end, after)
                    self.both("-T", "t.ld", *objects)

    def test_no_section(self) -> None:
        """A script without SECTIONS, and one with empty ones: all are orphans."""
        for text in ("ENTRY(_start)\n", "x = 5;\nSECTIONS { }\n", ". = 0x10000; SECTIONS { y = .; }\n"):
            self.write("t.ld", text)
            self.both("-T", "t.ld", "a.o", "b.o")

    def test_options(self) -> None:
        """--orphan-handling: warn says each, error is a fault, discard leaves them out."""
        self.script()
        for words in ((), ("--orphan-handling=place",), ("--orphan-handling=error", "--orphan-handling=place")):
            self.assertEqual(self.both(*words, "-T", "t.ld", "a.o").stderr, "")
        said = self.both("--orphan-handling=warn", "-T", "t.ld", "a.o").stderr
        gnu = self.run_program("ld.bfd", "--orphan-handling=warn", "-T", "t.ld", "a.o", "-o", "gnu").stderr
        lines = re.findall(r"warning: orphan section .*", said)
        self.assertEqual(len(lines), 6, said)
        self.assertTrue(all(line in gnu for line in lines), said)
        done = self.ld("--orphan-handling=error", "-T", "t.ld", "a.o", "-o", "none")
        self.assertEqual(done.returncode, 1, done.stderr)
        self.assertIn("F3 a.o .fast", done.stderr)
        self.assertFalse((self.folder / "none").exists())
        self.links("--orphan-handling=discard", "-T", "t.ld", "b.o", "-o", "own")
        self.assertEqual([one.name for one in self.image("own").sections], [".data", ".bss"])

    def test_regions(self) -> None:
        """In the region of the section before them, and loaded as it is."""
        memory = "MEMORY { rom : ORIGIN = 0x100000, LENGTH = 64K ram : ORIGIN = 0x800000, LENGTH = 64K }\n"
        for text in ("{ *(.text) } >rom", "{ *(.text) } >rom AT>rom"):
            for data in ("{ *(.data) } >ram AT>rom", "{ *(.data) } >ram", ": AT(0x200000) { *(.data) } >ram"):
                with self.subTest(text=text, data=data):
                    colon = "" if data.startswith(":") else ":"
                    self.write("t.ld", f"{memory}ENTRY(_start) SECTIONS {{ .text : {text} .data {colon} {data} "
                               ".bss : { *(.bss) } >ram /DISCARD/ : { *(.note.GNU-stack) } }")
                    self.both("-T", "t.ld", "a.o")
                    gnu, own = ([(one.address, one.load, one.memory_size) for one in self.image(name).segments
                                 if one.kind == PT_LOAD] for name in ("gnu", "own"))
                    loads = {load - address for address, load, _ in gnu}
                    self.assertEqual({load - address for address, load, _ in own}, loads)

    def test_segments(self) -> None:
        """In the segment of the section before them."""
        self.script(before="PHDRS { code PT_LOAD; rest PT_LOAD FLAGS(6); }\n")
        self.write("t.ld", self.read("t.ld").decode().replace("*(.text) }", "*(.text) } :code")
                   .replace("*(.data) }", "*(.data) } :rest"))
        self.both("-T", "t.ld", "a.o")
        gnu, own = (self.image(name).segments for name in ("gnu", "own"))
        self.assertEqual(own, gnu)

    def test_collected(self) -> None:
        """With --gc-sections: what is reached, notes, and what bounds keep."""
        self.compile("c.s", START.replace("$value", "$fast") + '.section .unused,"a"\n.byte 1\n')
        self.script()
        for words in (("c.o",), ("c.o", "b.o"), ("c.o", "-u", "block", "b.o")):
            self.both("--gc-sections", "-T", "t.ld", *words)

    def test_default_script(self) -> None:
        """Under the default script, whose first segment has the headers of the file: the same here."""
        for words in ((), ("-N",), ("-Ttext-segment=0x10000000",), ("-z", "max-page-size=0x4000")):
            with self.subTest(words=words):
                self.both(*words, "a.o", "b.o")
                gnu, own = (self.image(name) for name in ("gnu", "own"))
                heads = [[one for one in image.segments if one.kind == PT_LOAD and one.offset == 0]
                         for image in (gnu, own)]
                self.assertEqual([one.address for one in heads[1]], [one.address for one in heads[0]])

    @unittest.skipUnless(os.path.exists("/usr/lib/x86_64-linux-musl/libc.a"), "musl is not there")
    def test_program(self) -> None:
        """A static program of musl, which finds its program headers in memory, is linked and runs."""
        self.write("main.c", """#include <stdio.h>
            #include <stdlib.h>
            __attribute__((section("table"))) int one = 1, two = 2;
            extern int __start_table[], __stop_table[];
            int main(void) { int n = 0; for (int *p = __start_table; p < __stop_table; p++) n += *p;
                char *text = malloc(20); sprintf(text, "sum %d", n); puts(text); return 0; }\n""")
        self.must("musl-gcc", "-O2", "-fno-pie", "-c", "main.c")
        libraries = "/usr/lib/x86_64-linux-musl"
        words = [f"{libraries}/crt1.o", f"{libraries}/crti.o", "main.o", "-L", libraries, "-lc", f"{libraries}/crtn.o"]
        self.links("-static", "-o", "own", *words, env={"LDI_FALLBACK": "none"})
        self.assertEqual(self.must(self.folder / "own"), "sum 3\n")

    def test_frames(self) -> None:
        """`.eh_frame` that no statement takes, and the table of its entries: what is said of them is nothing."""
        self.compile("cfi.c", "void _start(void) { }", "-fasynchronous-unwind-tables")
        for frames in ("", ".eh_frame : { *(.eh_frame) }"):
            self.write("t.ld", f"SECTIONS {{ . = 0x400000; .text : {{ *(.text) }} {frames} }}")
            for words in ((), ("--eh-frame-hdr",), ("--eh-frame-hdr", "--no-eh-frame-hdr")):
                done = self.links(*words, "-T", "t.ld", "cfi.o", "-o", "own", env={"LDI_FALLBACK": "none"})
                self.assertEqual(done.stderr, "")

    def test_with_a_server(self) -> None:
        """Edits by which orphans come, grow, change their kind and go."""
        self.script(end="end = .;")
        words = ("-T", "t.ld", "a.o", "b.o", "-o", "served")
        for number, text in enumerate((OTHER, OTHER.replace(".byte 1", ".byte 1, 2, 3"),
                                       OTHER + ".section .new,\"a\"\n.long 1\n",
                                       OTHER.replace('table,"aw"', 'table,"ax"'), "nop\n", OTHER)):
            with self.subTest(number=number):
                self.compile("b.s", text)
                self.serves(*words, env={"LDI_FALLBACK": "none"})
                self.must("ld.bfd", "-T", "t.ld", "a.o", "b.o", "-o", "gnu")
                gnu, served = self.image("gnu"), self.image("served")
                self.assertEqual(sorted(served.places()), sorted(gnu.places()))
                self.assertEqual({name: served.symbols.get(name) for name in gnu.symbols}, gnu.symbols)
        self.assertGreaterEqual(self.calls(), 5)
