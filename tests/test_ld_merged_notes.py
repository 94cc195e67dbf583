"""Notes of properties, equal CIEs and sections of one name, which GNU ld merges: the bytes are those of GNU ld."""
from __future__ import annotations

from tests.linking import LinkTest, needs

SCRIPT = """SECTIONS { . = 0x10000; .text : { *(.text .text.* .gnu.linkonce.t.*) }
  .data : { *(.data*) *(.bss*) } .eh_frame : { BODY } .note : { *(.note.gnu.property) } .last : { QUAD(1) }
  /DISCARD/ : { *(.gone) *(.note.GNU-stack) *(.comment) } }
"""
PLAIN = ".cfi_startproc\n ret\n .cfi_endproc\n"
EIGHTH = ".cfi_escape 0x2e, 16, 0x2e, 16; ret"
"""With this an entry needs nothing that fills it up."""
FUNCTION = " .section .text.{0},\"ax\"\n .globl {0}\n{0}: " + PLAIN
PROPERTY = """ .section .note.gnu.property,"a",@note\n .balign 8\n .long 4, 16, 5\n .asciz "GNU"\n
 .long 0xc0000002, 4, {0}, 0\n"""
ONCE = ' .section .gnu.linkonce.t.{0},"ax",@progbits\n .weak {0}\n{0}: .byte {1}\n'
SOURCES = {
    "start": FUNCTION.format("_start"),
    "exact": f" .globl e\ne: {PLAIN.replace('ret', EIGHTH)}",
    "exact_signal": f" .globl q\nq: {PLAIN.replace('ret', '.cfi_signal_frame; ' + EIGHTH)}",
    "other": FUNCTION.format("other"),
    "signal": f" .globl f\nf: {PLAIN.replace('ret', '.cfi_signal_frame; ret')}",
    "longer": f" .globl g\ng: {PLAIN.replace('ret', '.cfi_def_cfa_offset 16; ret')}",
    "filled": f" .globl h\nh: {PLAIN.replace('ret', '.cfi_escape 0,0,0,0,0,0; ret')} nop\n{PLAIN}",
    "gone": f' .globl i\ni: {PLAIN} .section .gone,"ax"\n{PLAIN}',
    "end": ' .section .eh_frame,"a",@progbits\n .long 0\n',
    "bare": " .globl j\nj: ret\n",
    "shadow": " .globl k\nk: ret\n" + PROPERTY.format(3),
    "branch": " .globl l\nl: ret\n" + PROPERTY.format(1),
    "once": " .globl m\nm: ret\n" + ONCE.format("one", 1) + ONCE.format("two", 2),
    "twice": " .globl n\nn: ret\n" + ONCE.format("one", 3) + ONCE.format("three", 4),
    "again": " .globl o\no: ret\n" + ONCE.format("two", 5) + ONCE.format("three", 6),
}
LINKS = ("start", "start other", "start signal", "signal start", "start end", "start end end", "end start", "longer",
         "start longer", "signal longer", "longer signal", "filled", "bare filled", "gone", "start gone", "bare end",
         "start signal end", "start signal longer", "bare shadow", "shadow", "shadow branch", "shadow shadow2",
         "exact", "exact end", "exact exact_signal", "exact_signal exact end", "start exact_signal", "signal exact",
         "bare once", "once twice", "once twice again", "start bare once")


@needs("ld.bfd", "as", "objcopy")
class MergedTest(LinkTest):
    """Each link is made by both, and its sections are compared."""

    def setUp(self) -> None:
        """The objects."""
        super().setUp()
        for name, text in SOURCES.items():
            self.compile(f"{name}.s", text)
        self.compile("shadow2.s", " .globl p\np: ret\n" + PROPERTY.format(3))

    def parts(self, image: str) -> dict[str, bytes]:
        """The bytes of the sections that are told apart."""
        found = {}
        for name in (".eh_frame", ".note", ".text"):
            (self.folder / "part").unlink(missing_ok=True)
            self.run_program("objcopy", "-O", "binary", "-j", name, image, "part")
            found[name] = (self.folder / "part").read_bytes() if (self.folder / "part").exists() else b""
        found[".text"] = found[".text"].rstrip(b"\0")
        return found

    def tries(self, body: str, names: str) -> tuple[str, bool]:
        """A link by both: what is said of it, and whether the sections are the same."""
        self.write("t.ld", SCRIPT.replace("BODY", body))
        words = ["-T", "t.ld", "-e", "0x10000", *(f"{name}.o" for name in names.split())]
        self.run_tool("ld.bfd", "--no-warn-rwx-segments", *words, "-o", "gnu")
        done = self.links(*words, "-o", "own")
        return done.stderr, self.parts("own") == self.parts("gnu")

    def test_links(self) -> None:
        """All is the same, and nothing is said."""
        for names in LINKS:
            for body in ("KEEP(*(.eh_frame))", "*(.eh_frame)"):
                with self.subTest(names):
                    self.assertEqual(self.tries(body, names), ("", True))

    def test_lines(self) -> None:
        """Notes of properties, sections of one name, and equal CIEs."""
        self.assertEqual(self.tries("*(.eh_frame)", "start other once twice again shadow branch"), ("", True))
