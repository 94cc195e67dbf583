"""A table of scripts, each beside GNU ld: the image is GNU ld's, with nothing to say."""
from __future__ import annotations

import os
import tempfile
import unittest

from tests.fuzz import objects
from tests.fuzz.linked import CHANGED, GNU_REFUSES, SAME, link
from tests.fuzz.scripts import Case
from tests.linking import needs

REST = (".rest : { *(.text*) *(.rodata*) *(.data*) *(.tab*) *(cmds) *(.vectors) *(.init_array*) *(.fini_array*) "
        "*(.ramfunc) *(.empty.*) *(.note.x) *(.noinit) *(.bss*) *(COMMON) }")
MEMORY = "MEMORY { rom (rx) : ORIGIN = 0x400000, LENGTH = 64K ram (w!x) : ORIGIN = 0x20000000, LENGTH = 64K "
TWO = MEMORY + "ccm : ORIGIN = 0x10000000, LENGTH = 64K }"
SCRIPTS = {
    "an address of a section that takes nothing":
        "SECTIONS { . = 0x400000; .a : { *(.text) } .e 0x500000 : { *(.nothing) } REST end = .; }",
    "a load address of a section that takes nothing":
        "SECTIONS { . = 0x400000; .a : { *(.text) } .none : AT(0x8000000) { *(.nothing*) } REST }",
    "a region of a section that takes nothing":
        TWO + " SECTIONS { .text : { *(.text*) } >rom .bss : { *(.bss) } >ram .ccm : { *(.nothing) } >ccm end = .; "
        "heap = ALIGN(8); REST >ram }",
    "a load region of a section that takes nothing":
        TWO + " SECTIONS { .text : { *(.text*) } >rom .data : { *(.data) } >ram AT>rom .none : { *(.nothing) } >ram "
        "AT>ccm REST >ram }",
    "sections that are empty and stay":
        "SECTIONS { . = 0x400001; .a : { x = .; } .b : { . = ALIGN(8); } .c : { . = .; } .d : { . = ALIGN(. != 0 ? 8 : "
        "1); } .e : ALIGN(64) { PROVIDE(sym_1 = .); } .f : { KEEP(*(.empty.*)) } y = .; REST }",
    "AT of an odd number":
        "SECTIONS { . = 0x400000; .four : AT(0x200000 + 4) { *(.text) } REST }",
    "AT of an odd number, after it several":
        "SECTIONS { . = 0x400001; .one : AT(0x200003) { *(.data.c) } .two : { *(.rodata*) } .three : ALIGN(16) { "
        "*(.text*) } REST a = LOADADDR(.three); }",
    "AT> of a section that is aligned more":
        TWO + " SECTIONS { .one : { BYTE(1) } >rom .two : { *(.data*) } >ram AT>rom .three : { *(.rodata*) } >ram "
        "REST >ram }",
    "SORT_BY_INIT_PRIORITY":
        "SECTIONS { . = 0x400000; .i : { KEEP(*(SORT_BY_INIT_PRIORITY(.init_array.*))) *(.init_array) } REST }",
    "EXCLUDE_FILE of an archive":
        "SECTIONS { . = 0x400000; .t : { *(EXCLUDE_FILE(*libx.a) .text) *(EXCLUDE_FILE(*libx.a:x1.o) .data*) } REST }",
    "attributes of regions":
        TWO.replace("rom (rx)", "ram2 (w!x)").replace("ram (w!x)", "rom (rx)") + " SECTIONS { .text : { *(.text*) } "
        ".ro : { *(.rodata*) } .data : { *(.data*) } REST >ccm }",
    "ALIGNOF with ALIGN in the head":
        "SECTIONS { . = 0x400000; .t : ALIGN(256) { *(.text) } a = ALIGNOF(.t); REST b = ALIGNOF(.rest); }",
    "objects' symbols in a section":
        "SECTIONS { . = 0x400000; REST .t : { BYTE(1) a = main & 0xff; b = -main; c = main * 2; d = ~main; e = main - ."
        "; f = absolute + 4; } }",
    "two PROVIDEs":
        "SECTIONS { . = 0x400000; .a : { *(.data.f) } PROVIDE(provided_1 = 3); PROVIDE(provided_1 = 4); REST "
        "PROVIDE(provided_2 = .); PROVIDE(provided_2 = 5); }",
    "division with a sign":
        "a = 3; SECTIONS { . = 0x400000; b = (a - 11) / 2; c = (a - 11) % 3; .t : { *(.text) d = (a - 11) / 2; e = "
        "(. - 100) / 2; } f = (SIZEOF(.t) - 100) % 7; REST }",
    "FILL, and a fill, over several gaps":
        "SECTIONS { . = 0x400000; .t : { BYTE(1) . = ALIGN(8); BYTE(2) FILL(0x123456) . = ALIGN(16); BYTE(3) . += 7; "
        "*(.rodata*) FILL(0x90) . = ALIGN(64); } =0xabcd .u : { BYTE(1) . = ALIGN(8); BYTE(2) . = ALIGN(8); } "
        "=0x11223344 REST }",
    "DATA_SEGMENT_ALIGN and its like":
        "SECTIONS { . = 0x400000; .t : { *(.text*) } . = DATA_SEGMENT_ALIGN(0x1000, 0x1000); .r : { *(.rodata*) } . = "
        "DATA_SEGMENT_RELRO_END(0, .); REST . = DATA_SEGMENT_END(.); end = .; }",
    "SIZEOF_HEADERS": "SECTIONS { . = 0x400000 + SIZEOF_HEADERS; REST a = SIZEOF_HEADERS; }",
    "SUBALIGN": "SECTIONS { . = 0x400000; .t : SUBALIGN(64) { *(.text*) *(.data*) } REST }",
    "a sum that comes later":
        "SECTIONS { . = 0x400000; . = . + SIZEOF(.rest); a = ADDR(.rest) + 1; REST b = LOG2CEIL(SIZEOF(.rest)); }",
    "several sorts, and nested ones":
        "SECTIONS { . = 0x400000; .t : { *(SORT_BY_NAME(.text*) .data* SORT_BY_ALIGNMENT(.rodata*)) "
        "*(SORT_BY_ALIGNMENT(SORT_BY_NAME(.tab*))) } REST }",
    "values that are known later":
        "a = top; SECTIONS { . = 0x400000; .t : { LONG(top) *(.text*) x = later; } later = . + 4; REST } top = end_of; "
        "end_of = ADDR(.rest) + SIZEOF(.rest);",
    "assignments in a section that is left out, which objects refer to":
        "sym_2 = 1; SECTIONS { . = 0x400000; REST .n : ONLY_IF_RW { PROVIDE_HIDDEN(provided_1 = 1); sym_1 = 5; sym_2 = "
        "sym_1 + 2; end = .; } }",
    "PROVIDEs of both of two sections, of which one is left out":
        "SECTIONS { . = 0x400000; .x : ONLY_IF_RO { PROVIDE(provided_1 = .); *(.data*) PROVIDE(provided_2 = .); } .x : "
        "ONLY_IF_RW { PROVIDE(provided_1 = .); *(.data*) PROVIDE(provided_2 = .); } REST }",
    "no bytes between bytes, with a load address of their own":
        "SECTIONS { . = 0x400000; .a : { *(.text*) } .b : AT(0x230029) ALIGN(64) { . += 4; } .c : AT(ADDR(.c)) { "
        "*(.data*) } REST }",
    "no bytes after bytes, with a load address of their own":
        "SECTIONS { . = 0x400000; .a : { . = 0x100; BYTE(1) } .b : AT(0x200004) { . = 0x80; } REST .c : AT(ADDR(.c)) { "
        ". += 33; } }",
    "NOLOAD, and ALIGN_WITH_INPUT":
        TWO + " SECTIONS { .one : { BYTE(1) } >rom .two : ALIGN_WITH_INPUT { *(.data*) } >ram AT>rom .n (NOLOAD) : { "
        "*(.noinit) . = ALIGN(64); } >ccm REST >ram AT>rom }",
}


@needs("ld.bfd", "as", "ar")
class SameTest(unittest.TestCase):
    """Each beside GNU ld: sections, load addresses, bytes of the file, symbols, entry."""

    def setUp(self) -> None:
        """A folder with the objects."""
        folder = tempfile.TemporaryDirectory(prefix="ldi-same-")
        self.addCleanup(folder.cleanup)
        self.addCleanup(os.chdir, os.getcwd())
        os.chdir(folder.name)
        objects.make(".")

    def came(self, script: str, *before: str, **files: str) -> str:
        """What came of a script; nothing is said where it is the same."""
        one = Case(script.replace("REST", REST), list(before), [], [*objects.NAMES, "--whole-archive", objects.ARCHIVE],
                   {f"{name}.ld": text for name, text in files.items()})
        came = link(one)
        self.assertNotEqual(came.outcome, GNU_REFUSES, came.said)
        if came.outcome == SAME:
            self.assertNotIn("changed", came.said)
        return came.outcome

    def test_scripts(self) -> None:
        """All of the table."""
        for name, script in SCRIPTS.items():
            with self.subTest(name):
                self.assertEqual(self.came(script), SAME)

    def test_page_constants(self) -> None:
        """CONSTANT of pages in the script, in what it includes and in --defsym, with and without -z."""
        script = ("a = CONSTANT(MAXPAGESIZE); SECTIONS { INCLUDE inner.ld . = ALIGN(CONSTANT(COMMONPAGESIZE)); REST "
                  "b = CONSTANT(COMMONPAGESIZE); }")
        inner = ". = 0x400000 + CONSTANT(MAXPAGESIZE);\n"
        defsym = "--defsym=sym_1=CONSTANT(MAXPAGESIZE) + 1"
        for words in ((), ("-z", "max-page-size=0x4000"), ("-z", "common-page-size=0x2000"),
                      ("-z", "max-page-size=0x10000", "-z", "common-page-size=0x8000"),
                      ("-z", "max-page-size=0x1000", "-z", "common-page-size=0x800")):
            with self.subTest(words):
                self.assertEqual(self.came(script, *words, inner=inner), SAME)
                self.assertEqual(self.came(script, *words, defsym, inner=inner), SAME)

    def test_what_is_said(self) -> None:
        """What the image cannot be is said: bytes that are not loaded. A section before those of its segment is in
        it."""
        script = "SECTIONS { . = 0x400000; .n (NOLOAD) : { *(.data*) } REST }"
        self.assertEqual(self.came(script), CHANGED)
        script = ("PHDRS { one PT_LOAD; two PT_LOAD; } SECTIONS { . = 0x400000; .a : { *(.text.*) } .b : { BYTE(1) } "
                  ":two .c : { . += 4; } :one REST }")
        self.assertEqual(self.came(script), SAME)
