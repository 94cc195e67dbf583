"""Tables of which GNU ld leaves out rows: entries of `.eh_frame`, and stabs that are loaded."""
from __future__ import annotations

from tests.images import read_image
from tests.programs import OutsideTest, needs
from tests.symbol_table import table_differences
from tests.test_ld_unloaded import STABS

KERNEL = """ENTRY(first)
SECTIONS { . = 0x100000; .text : { *(.text .text.*) } .rodata : { *(.rodata .rodata.*) }
  .stab : { PROVIDE(__STAB_BEGIN__ = .); *(.stab); PROVIDE(__STAB_END__ = .); BYTE(0) }
  .stabstr : { PROVIDE(__STABSTR_BEGIN__ = .); *(.stabstr); PROVIDE(__STABSTR_END__ = .); BYTE(0) }
  .data : { *(.data .data.*) } /DISCARD/ : { *(.note*) } }
"""
"""As kernels for teaching have it, which read their own stabs."""
BOUNDS = """ .data
 .quad __STAB_BEGIN__, __STAB_END__, __STABSTR_BEGIN__, __STABSTR_END__
"""
FRAMES = """ENTRY(start)
SECTIONS { . = 0x100000; .text : { *(.text .text.*) } BODY end = .; .data : { *(.data*) *(.gcc_except_table*) }
  /DISCARD/ : { *(.note* .comment .gone) } }
"""
FUNCTION = """ .section SECTION,"ax"
 .globl NAME
NAME: .cfi_startproc
 .cfi_personality 0x1b, handler
 .cfi_lsda 0x1b, .Lof_NAME
 MORE
 nop
 .cfi_endproc
 .section .gcc_except_table.NAME,"a"
.Lof_NAME: .byte 1
"""
NONE = {"LDI_FALLBACK": "none"}


@needs("ld.bfd", "as")
class TablesTest(OutsideTest):
    """Each link is made by both linkers."""

    def is_same(self, *words: str, served: bool = False) -> None:
        """Sections, symbols and what is said: nothing."""
        done = (self.serves if served else self.links)(*words, "-o", "own", env=NONE)
        self.assertNotIn("changed", done.stderr)
        self.must("ld.bfd", "--no-warn-rwx-segments", *words, "-o", "gnu")
        own, gnu = self.read("own"), self.read("gnu")
        self.assertEqual(read_image(own).places(), read_image(gnu).places(), words)
        self.assertEqual(table_differences(gnu, own), [])

    def stabs(self, name: str, called: str, more: str = "") -> str:
        """An object with stabs."""
        text = STABS.replace("CALLED", called).replace("NAME", name).replace("FILE", "3")
        return self.compile(f"{name}.s", text + more)

    def test_stabs(self) -> None:
        """Rows and names are those of GNU ld, with what it leaves out, also after edits."""
        self.write("t.ld", KERNEL)
        names = [self.stabs("first", "second", BOUNDS), self.stabs("second", "first"), self.stabs("third", "first")]
        plain = self.compile("plain.s", " .data\n .long 1\n")
        self.write("plain.ld", KERNEL.replace("BYTE(0)", ""))
        for words in (["-T", "t.ld"], ["-T", "t.ld", "--gc-sections"], ["-T", "t.ld", "-S"], ["-T", "plain.ld"],
                      ["-T", "t.ld", "-q"], ["-T", "t.ld", "--traditional-format"]):
            self.is_same(*words, plain, *names)
        for called in ("third", "second"):
            self.stabs("third", called, f" .stabs \"a new name of {called}\",128,0,0,0\n")
            self.is_same("-T", "t.ld", plain, *names, served=True)

    def frames(self, name: str, section: str = ".text", more: str = "") -> str:
        """The text of a function with an entry in `.eh_frame`."""
        return FUNCTION.replace("NAME", name).replace("SECTION", section).replace("MORE", more)

    def test_frames(self) -> None:
        """Equal CIEs are one, entries for code that goes are left out, those that stay are filled up, one end stays."""
        start = self.frames("start", more="call one\n call two") + " .globl handler\nhandler: ret\n"
        one = self.frames("one") + self.frames("lost", ".gone") + self.frames("unused", ".text.x")
        names = [self.compile("start.s", start), self.compile("one.s", one),
                 self.compile("two.s", self.frames("two", more=".cfi_signal_frame\n .cfi_escape 0, 0, 0, 0, 0")),
                 self.compile("end.s", ' .section .eh_frame,"a"\nlast: .long 0\n')]
        for body in (".eh_frame : { KEEP(*(.eh_frame)) }", ".eh_frame : ALIGN(8) { *(.eh_frame) LONG(0) }", "",
                     ".eh_frame : { KEEP(two.o(.eh_frame)) *(.eh_frame) }", "/DISCARD/ : { *(.eh_frame) }"):
            self.write("t.ld", FRAMES.replace("BODY", body))
            for words in ([], ["--gc-sections"], ["-q"], ["--gc-sections", "-q"]):
                self.is_same("-T", "t.ld", *words, *names)
                self.is_same("-T", "t.ld", *words, *names[:3])
        self.write("t.ld", FRAMES.replace("BODY", ".eh_frame : { *(.eh_frame) }").replace(".gone", ".none"))
        self.is_same("-T", "t.ld", "--traditional-format", *names)

    def test_frames_with_a_server(self) -> None:
        """Edits by which entries come, grow and go."""
        self.write("t.ld", FRAMES.replace("BODY", ".eh_frame : { KEEP(*(.eh_frame)) }"))
        text = self.frames("start", more="call one\n call two") + " .globl handler\nhandler: ret\n"
        names = [self.compile("start.s", text), self.compile("one.s", self.frames("one")),
                 self.compile("two.s", self.frames("two"))]
        edits = {"one.s": [self.frames("one", more=".cfi_def_cfa_offset 16"), self.frames("one") + self.frames("more"),
                           " .globl one\none: nop\n", self.frames("one", more=".cfi_signal_frame")],
                 "start.s": [text.replace("0x1b, handler", "0, handler"), text]}
        for name, texts in edits.items():
            for one in texts:
                self.compile(name, one)
                self.is_same("-T", "t.ld", *names, served=True)
                self.is_same("-T", "t.ld", "--gc-sections", *names, served=True)
