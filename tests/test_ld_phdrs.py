"""PHDRS of a script, beside GNU ld's program headers."""
from __future__ import annotations

import re
import struct

from tests.images import read_image
from tests.linking import LinkTest, needs
from tests.test_ld_kernel import KERNEL, LARGE_PAGE

NOTE = """.section .note.test,"a",@note
.balign 4
.long 4, 4, 1
.asciz "abc"
.long 9
.section .note.GNU-stack,"",@progbits
"""
SEGMENTS = """ENTRY(start)
PHDRS {
  headers PT_PHDR PHDRS;
  text PT_LOAD FILEHDR PHDRS FLAGS(4 | 1);
  data PT_LOAD; /* its flags are those of its sections */
  note PT_NOTE;
  stack PT_GNU_STACK FLAGS(6);
  number 0x70000001 FLAGS(4);
  none PT_NULL;
  empty PT_LOAD;
}
SECTIONS {
  . = 0x400000 + SIZEOF_HEADERS;
  .text : { *(.text .text.*) } :text
  .notes : { *(.note.test) } :text :note
  .rodata : { *(.rodata .rodata.*) } :text
  .nothing : { *(.nothing) } :empty
  . = ALIGN(0x1000);
  .data : AT(0x100000) { *(.data .data.*) } :data
  .bss : { *(.bss .bss.*) }
  .later : { *(.later) }
  .unused : { *(.unused) } :NONE
  /DISCARD/ : { *(.eh_frame) *(.note.GNU*) *(.comment) }
}
"""
MIXED = """long zeros[50]; long words[3] = {1, 2, 3};
long later[2] __attribute__((section(".later"))) = {4, 5};
const long fixed[4] = {6};
long start(void) { return zeros[1] + words[1] + later[1] + fixed[1]; }
"""


class ProgramHeaderTest(LinkTest):
    """PHDRS of a script, beside GNU ld's program headers."""

    def setUp(self) -> None:
        """Compiles the sources."""
        super().setUp()
        self.objects = [self.compile("mixed.c", MIXED), self.compile("note.s", NOTE)]

    def _headers(self, name: str) -> list[tuple[int, ...]]:
        """The program headers without their offsets."""
        image = (self.folder / name).read_bytes()
        (count,) = struct.unpack_from("<H", image, 56)
        headers = [struct.unpack_from("<IIQQQQQQ", image, 64 + 56 * index) for index in range(count)]
        return [(kind, flags, *rest) for kind, flags, _, *rest in headers]

    def _bytes(self, name: str) -> dict[str, str]:
        """The sections of an image with their bytes."""
        lines = self.run_tool("objdump", "-s", name).split("Contents of section ")[1:]
        return {text.split(":", 1)[0]: text for text in lines}

    def _links_both(self, script: str, *words: str) -> str:
        """Links by both linkers; gives what `ld.ldi` said."""
        self.write("script.ld", script)
        self.run_tool("ld.bfd", "-T", "script.ld", "-o", "gnu", *words, *self.objects)
        return self.links("-T", "script.ld", "-o", "image", *words, *self.objects).stderr

    @needs("ld.bfd")
    def test_as_gnu_ld(self) -> None:
        """Types, flags, addresses, sizes and alignments are GNU ld's, and readelf finds nothing wrong."""
        for words in ((), ("-z", f"max-page-size={LARGE_PAGE:#x}"), ("-z", "max-page-size=0x200"), ("-n",)):
            said = self._links_both(SEGMENTS, *words)
            self.assertEqual(self._headers("image"), self._headers("gnu"), words)
            self.assertNotIn("PHDRS", said)
            self.assertNotIn("segments follow", said)
            self.assertNotIn("warning", self.run_tool("readelf", "-lSW", "image").lower())

    @needs("ld.bfd")
    def test_without_bytes(self) -> None:
        """A PT_LOAD of zeros takes no room in the file, and a segment whose sections all go is empty, as picolibc's
        (elf.c, `assign_file_positions_for_load_sections`, no_contents)."""
        script = """ENTRY(start) PHDRS { text PT_LOAD; init PT_LOAD; ram PT_LOAD; tls PT_TLS; note PT_NOTE; }
            SECTIONS { . = 0x400000; .text : { *(.text*) *(.rodata*) } :text
            . = 0x500000; .data : { *(.data*) *(.later) } :init
            .tdata : { *(.tdata) } :init :tls .tbss (NOLOAD) : { *(.tbss) } :init :tls SPACE : { *(.bss*) } :ram
            .none : { *(.none) } :WHERE .end : { end = .; } :NONE /DISCARD/ : { *(*) } }"""
        for space in (".bss", ".bss 0x601040", ".bss (NOLOAD)"):
            for note in ("note", "ram :note"):
                for words in ((), ("-z", f"max-page-size={LARGE_PAGE:#x}"), ("-n",)):
                    self._links_both(script.replace("SPACE", space).replace("WHERE", note), *words)
                    own, gnu = (read_image((self.folder / name).read_bytes()) for name in ("image", "gnu"))
                    self.assertEqual(own.segments, gnu.segments, (space, note, words))

    @needs("ld.bfd")
    def test_kernel(self) -> None:
        """Two segments at a distance from their load addresses; zeros in the middle are in the file."""
        script = KERNEL.replace("jiffies = jiffies_64;", "").replace(" + jiffies", "")
        script = script.replace("/DISCARD/", ".later : { *(.later) } .rodata : { *(.rodata*) } /DISCARD/")
        self._links_both(script)
        self.assertEqual(self._headers("image"), self._headers("gnu"))
        self.assertEqual(self._bytes("image")[".later"], self._bytes("gnu")[".later"])
        self.assertEqual(self._headers("image")[1][4], self._headers("image")[1][5])

    @needs("ld.bfd")
    def test_noload(self) -> None:
        """NOLOAD is in no segment without a name, not in that of the section before it."""
        script = """PHDRS { load PT_LOAD; } SECTIONS { . = 0x400000; .text : { *(.text*) *(.rodata*) } :load
            . = 0x10000; .stack (NOLOAD) : { . += 0x1000; }
            . = 0x500000; .data : { *(.data* .later) } .bss : { *(.bss*) }
            . = 0x600000; .named (NOLOAD) : { . += 16; } :load /DISCARD/ : { *(*) } }"""
        for words in ((), ("-n",)):
            said = self._links_both(script, "-e", "0", *words)
            self.assertEqual(self._headers("image"), self._headers("gnu"), words)
            self.assertNotIn("segments follow", said)

    def _plain(self) -> bytes:
        """The image of the script without PHDRS."""
        script = re.sub(r"PHDRS \{.*?\}", "", SEGMENTS, flags=re.DOTALL).replace("SIZEOF_HEADERS", hex(64 + 8 * 56))
        self.write("plain.ld", re.sub(r"\} (:\w+ ?)+", "} ", script))
        self.links("-T", "plain.ld", "-o", "plain", *self.objects)
        return (self.folder / "plain").read_bytes()

    def test_bytes_stay(self) -> None:
        """Sections, symbols and bytes are those of the same script without PHDRS."""
        self._plain()
        self.write("script.ld", SEGMENTS)
        self.links("-T", "script.ld", "-o", "image", *self.objects)
        for tool in (("nm",), ("objdump", "-s"), ("objdump", "-d"), ("size", "-A")):
            texts = [self.run_tool(*tool, name).replace(name, "") for name in ("plain", "image")]
            self.assertEqual(*texts, tool)

    def test_loads(self) -> None:
        """A program with PHDRS runs."""
        objects = self.compile_example()
        script = (self.folder / "linux.ld").read_text(encoding="utf-8")
        script = re.sub(r"(\.(text|data) : \{.*\})", r"\1 :\2", script)
        self.write("phdrs.ld", "PHDRS { text PT_LOAD FLAGS(5); data PT_LOAD FLAGS(6); }\n" + script)
        self.links("-T", "phdrs.ld", "-o", "hello", *objects)
        self.assertEqual([header[:2] for header in self._headers("hello")], [(1, 5), (1, 6)])
        self.assertIn("primes below 100: 25", self.run_tool("./hello"))

    def test_cannot_be_written(self) -> None:
        """The reason is one line, and the image has the program headers of `ldi`."""
        for reason, (old, new) in {
            ".bss and .later of data are loaded at two distances from their addresses": (".later :",
                                                                                         ".later : AT(0x900000)"),
            "there is no room for the headers of the file before text": ("0x400000 + SIZEOF_HEADERS", "0x100"),
            "data has FILEHDR or PHDRS and is not the first PT_LOAD": ("data PT_LOAD;", "data PT_LOAD FILEHDR PHDRS;"),
            ".later is in data and in empty, both PT_LOAD": (".later : { *(.later) }",
                                                             ".later : { *(.later) } :data :empty"),
            "text and empty would share addresses": (":text :note", ":empty"),
            "there are 70007 program headers": ("headers PT_PHDR PHDRS;", "many PT_NULL;" * 70000),
            ".unused is assigned to missing, which PHDRS does not have": (":NONE", ":missing"),
            "no PT_LOAD has the PHDRS of headers": ("text PT_LOAD FILEHDR PHDRS", "text PT_LOAD FILEHDR"),
        }.items():
            self.write("script.ld", SEGMENTS.replace(old, new))
            said = self.links("-T", "script.ld", "-o", "image", *self.objects).stderr
            lines = [line for line in said.splitlines() if "segments follow" in line]
            self.assertEqual(lines, [f"ld.ldi: script.ld: PHDRS: {reason}: segments follow addresses, sizes and flags "
                                     "of the output sections"])
            self.assertEqual({header[0] for header in self._headers("image")}, {1})
