"""The table `.eh_frame_hdr` of the entries of `.eh_frame`, which `--eh-frame-hdr` asks for."""
from __future__ import annotations

from tests.images import read_image
from tests.programs import LD_LDI, OutsideTest, needs
from tests.symbol_table import table_differences

SCRIPT = """ENTRY(start)
SECTIONS { . = 0x100000; TABLE FRAMES end = .;
  .text : { *(.text .text.*) } .more : { *(.more) } .data : { *(.data*) *(.gcc_except_table*) }
  /DISCARD/ : { *(.note* .comment .gone) } }
"""
TABLE = ".eh_frame_hdr : { *(.eh_frame_hdr) }"
FRAMES = ".eh_frame : { KEEP(*(.eh_frame)) }"
PHDRS = "PHDRS { all PT_LOAD; table PT_GNU_EH_FRAME; }\n"
FUNCTION = """ .section SECTION,"ax"
 .globl NAME
NAME: .cfi_startproc
 MORE
 nop
 .cfi_endproc
"""
COMMON = """ .text
by_hand: nop
 nop
 .section .eh_frame,"a"
common: .long 16, 0
 .byte 1, 'z', 'R', 0, 1, 0x78, 16, 1, 0x1b, 0, 0, 0
"""
ENTRY = " .long 16\n .long . - common\n .long by_hand - .\n .long 2, 0\n"
"""A CIE as gcc writes it, and an entry of it, by hand."""
OPTIONS: list[list[str]] = [[], ["--gc-sections"], ["-q"], ["-s"], ["--build-id=0x1234", "-n"]]
NONE = {"LDI_FALLBACK": "none"}


def function(name: str, section: str = ".text", more: str = "") -> str:
    """The text of a function with an entry."""
    return FUNCTION.replace("NAME", name).replace("SECTION", section).replace("MORE", more)


@needs("ld.bfd", "as")
class FrameTableTest(OutsideTest):
    """Each link is made by both linkers, whose bytes are compared."""

    names: list[str]

    def setUp(self) -> None:
        """Assembles objects: functions of several sections, not in the order of their entries."""
        super().setUp()
        start = function("second", ".more", "nop") + function("start", more="call one\n call second")
        one = function("one", ".text.z") + function("lost", ".gone") + function("unused", ".text.x")
        self.names = [
            self.compile("plain.s", " .data\n .long 1\n"),
            self.compile("start.s", start),
            self.compile("one.s", one),
            self.compile("other.s", function("other", ".text.a", ".cfi_signal_frame")),
        ]

    def script(self, table: str = TABLE, frames: str = FRAMES, phdrs: str = "") -> None:
        """Writes the script."""
        self.write("t.ld", phdrs + SCRIPT.replace("TABLE", table).replace("FRAMES", frames))

    def is_same(self, *words: str, served: bool = False) -> str:
        """Sections, bytes, program headers and symbols are those of GNU ld's file; gives the names of its sections."""
        words = ("-T", "t.ld", *words)
        done = (self.serves if served else self.links)(*words, "-o", "own", env=NONE)
        self.assertNotIn("changed", done.stderr)
        self.must("ld.bfd", "--no-warn-rwx-segments", *words, "-o", "gnu")
        own, gnu = read_image(self.read("own")), read_image(self.read("gnu"))
        self.assertEqual(own.places(), gnu.places(), words)
        for name in (".eh_frame_hdr", ".eh_frame"):
            self.assertEqual(self.bytes_of("own", name), self.bytes_of("gnu", name), (words, name))
        headers = [self.must("readelf", "-Wl", name).split("Program Headers:")[1] for name in ("own", "gnu")]
        self.assertEqual(headers[0], headers[1], words)
        self.assertEqual(table_differences(self.read("gnu"), self.read("own")), [])
        return self.must("readelf", "-WS", "gnu")

    def bytes_of(self, file: str, section: str) -> str:
        """The bytes of a section, as text."""
        return self.must("sh", "-c", f"objdump -s -j {section} {file} 2> /dev/null | tail -n +4; true")

    def test_placed(self) -> None:
        """By a statement of its own, by one with more, as an orphan, with `.eh_frame` an orphan too."""
        statements = [TABLE, ".eh_frame_hdr : ALIGN(64) { LONG(7) KEEP(*(.eh_frame_hdr)) LONG(9) }", "",
                      ".table : { *(.eh_frame_hdr) }"]
        for table in statements:
            for frames in (FRAMES, ".eh_frame : ALIGN(8) { *(.eh_frame) LONG(0) }", ""):
                self.script(table, frames)
                for words in OPTIONS:
                    shown = self.is_same("--eh-frame-hdr", *words, *self.names)
                    if "KEEP" in frames or "--gc-sections" not in words:
                        self.assertIn(".table" if ".table" in table else ".eh_frame_hdr", shown)

    def test_segments(self) -> None:
        """PT_GNU_EH_FRAME of PHDRS, and headers that are counted."""
        self.script(f"{TABLE} :all :table", f"{FRAMES} :all", PHDRS)
        self.is_same("--eh-frame-hdr", *self.names)
        self.script(". = 0x200000 + SIZEOF_HEADERS; " + TABLE)
        self.is_same("--eh-frame-hdr", *self.names)
        self.is_same("--no-eh-frame-hdr", *self.names)

    def test_map(self) -> None:
        """The map of a link, with the name of the table's start, and the table of names."""
        for table in (TABLE, ""):
            self.script(table)
            for more in OPTIONS[:2]:
                words = (*more, "--eh-frame-hdr", "-T", "t.ld", *self.names, "--cref", "-o", "image")
                self.links(*words, "-Map=own.map", env=NONE)
                self.must("ld.bfd", "--no-warn-rwx-segments", *words, "-Map=gnu.map")
                self.assertEqual(self.read("own.map"), self.read("gnu.map"), words)

    def test_none(self) -> None:
        """There is none without the option, without entries, and if the script discards it or places no `.eh_frame`."""
        self.script()
        whole = [name for name in self.names if name != "one.o"] + ["--defsym=one=start"]
        self.assertNotIn(".eh_frame_hdr", self.is_same("--eh-frame-hdr", "--no-eh-frame-hdr", *self.names))
        text = self.compile("text.s", " .globl start\nstart: nop\n")
        self.assertNotIn(".eh_frame_hdr", self.is_same("--eh-frame-hdr", text))
        self.assertNotIn(".eh_frame_hdr", self.is_same("--eh-frame-hdr", "--traditional-format", *whole))
        for table, frames in (("/DISCARD/ : { *(.eh_frame_hdr) }", FRAMES), (TABLE, "/DISCARD/ : { *(.eh_frame) }"),
                              (TABLE, ".frames : { *(.eh_frame) }")):
            self.script(table, frames)
            self.assertNotIn("GNU_EH_FRAME", self.is_same("--eh-frame-hdr", *whole))

    def test_without_rows(self) -> None:
        """Entries that are all for code that goes, and entries that GNU ld does not understand."""
        gone = self.compile("gone.s", " .globl start\nstart: nop\n" + function("gone", ".gone"))
        end = self.compile("end.s", ' .section .eh_frame,"a"\n .long 0\n')
        self.script()
        done = self.links("--eh-frame-hdr", "-T", "t.ld", gone, "-o", "own", env=NONE)
        self.assertIn("changed: --eh-frame-hdr: nothing is left of .eh_frame", done.stderr)
        self.must("ld.bfd", "--eh-frame-hdr", "-T", "t.ld", gone, "-o", "gnu")
        heads = [self.bytes_of(name, ".eh_frame_hdr")[:26] for name in ("own", "gnu")]
        self.assertEqual(heads[0], heads[1], "but for four bytes, which are whatever there is to GNU ld")
        self.is_same("--eh-frame-hdr", gone, end)
        odd = self.compile("odd.s", function("odd") + ' .section .eh_frame,"a"\n .long 12, 99, 1, 2\n')
        self.is_same("--eh-frame-hdr", *self.names, odd)
        done = self.links("--eh-frame-hdr", "-T", "t.ld", *self.names, odd, "-o", "own", env=NONE)
        self.assertIn("error in odd.o(.eh_frame); no .eh_frame_hdr table will be created", done.stderr)
        own = self.compile("own.s", function("own") + ' .section .eh_frame_hdr,"a"\n .byte 1\n')
        self.is_same("--eh-frame-hdr", own, *self.names)
        done = self.links("--eh-frame-hdr", "-T", "t.ld", own, *self.names, "-o", "own", env=NONE)
        self.assertIn("warning: cannot create .eh_frame_hdr section, --eh-frame-hdr ignored", done.stderr)

    def test_refused(self) -> None:
        """GNU ld makes no image of two entries for the same code: such a link is its own."""
        once, twice = (self.compile(f"of_{count}.s", COMMON + ENTRY * count) for count in (1, 2))
        self.script()
        self.is_same("--eh-frame-hdr", *self.names, once)
        words = ("--eh-frame-hdr", "-T", "t.ld", *self.names, twice, "-o", "own")
        why = "--eh-frame-hdr: .eh_frame_hdr refers to overlapping FDEs"
        self.assertIn(why, self.run_program(LD_LDI, *words, env=NONE).stderr)
        self.assertIn(f"{why}: linked by ld.bfd", self.run_program(LD_LDI, *words).stderr)

    def test_after_edits(self) -> None:
        """The rows follow the code, and come and go with it."""
        self.script()
        new = function("new", ".text.b"), function("new", ".text.b", ".skip 100"), function("new", ".more")
        for text in ("", *new, ""):
            self.compile("plain.s", " .data\n .long 1\n" + text)
            self.is_same("--eh-frame-hdr", *self.names, served=True)
        self.script(".eh_frame_hdr : { LONG(1) *(.eh_frame_hdr) }")
        self.is_same("--eh-frame-hdr", *self.names, served=True)

    def test_fields_that_gnu_ld_leaves_empty(self) -> None:
        """It takes a distance for none that is 0 before entries move: that of a function, and of its exceptions."""
        lsda = " .cfi_personality 0x1b, start\n .cfi_lsda 0x1b, .Ltable"
        table = '\n .section .gcc_except_table,"a"\n.Ltable: .byte 1\n'
        for number, more in ((0, ""), (1, lsda)):
            names = [self.compile("start.s", function("start", more=more) + (table if more else "")),
                     self.compile("last.s", function("last", more=more) + (table if more else ""))]
            for size in range(0, 48):
                kind = ".text" if number == 0 else ".gcc_except_table"
                fill = self.compile("fill.s", f' .section {kind},"a{"x" if number == 0 else ""}"\n .skip {size}\n')
                first = f"{kind} : {{ fill.o({kind}) *({kind}) }}"
                self.write("t.ld", f"SECTIONS {{ . = 0x100000; .eh_frame : {{ *(.eh_frame) }} {first} }}")
                words = ("-T", "t.ld", "-e", "start", *names, fill)
                self.assertEqual(self.links(*words, "-o", "own", env=NONE).stderr, "")
                self.must("ld.bfd", *words, "-o", "gnu")
                self.assertEqual(self.read("own")[0x1000:0x1080], self.read("gnu")[0x1000:0x1080], (number, size))
