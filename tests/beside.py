"""Small links by both linkers, whose images are compared."""
from __future__ import annotations

from tests.images import Image, read_image
from tests.programs import OutsideTest, needs

START = ".globl _start\n_start: nop\n"
PLAIN = """ENTRY(_start)
SECTIONS { . = 0x400000; .text : { *(.text) } .rodata : { *(.rodata*) } . = ALIGN(4096); .data : { *(.data) }
           .bss : { *(.bss) *(COMMON) } /DISCARD/ : { *(.comment) *(.note*) *(.eh_frame) } }
"""
NONE = {"LDI_FALLBACK": "none"}
"""No link of these tests is another linker's, but where that is said."""


@needs("ld.bfd")
class BesideTest(OutsideTest):
    """Links by both linkers."""

    def both(self, *words: str) -> tuple[Image, Image]:
        """The images of `ld.ldi`, which links by itself, and of GNU ld."""
        self.links(*words, "-o", "own", env=NONE)
        self.must("ld.bfd", *words, "-o", "gnu")
        return read_image(self.read("own")), read_image(self.read("gnu"))

    def same(self, *words: str) -> tuple[Image, Image]:
        """The same, whose sections, symbols and entries are the same."""
        own, gnu = self.both(*words)
        self.assertEqual(own.places(), gnu.places())
        self.assertEqual(own.symbols, gnu.symbols)
        self.assertEqual(own.entry, gnu.entry)
        return own, gnu
