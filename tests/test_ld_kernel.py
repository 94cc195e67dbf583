"""`ld.ldi`: what a kernel's script and command line want besides: values of objects' symbols, and larger pages."""
from __future__ import annotations

import re

from tests.images import PT_LOAD, read_image
from tests.linking import LinkTest, needs
from tests.programs import OutsideTest
from tests.symbol_table import read_relocations, read_table

KERNEL = """OUTPUT_FORMAT("elf64-x86-64")
jiffies = jiffies_64;
ENTRY(phys_start)
PHDRS { text PT_LOAD FLAGS(5); data PT_LOAD FLAGS(6); }
SECTIONS {
  . = 0xffffffff81000000;
  phys_start = ABSOLUTE(start - 0xffffffff80000000);
  .text : AT(ADDR(.text) - 0xffffffff80000000) { *(.text .text.*) } :text
  . = ALIGN(0x1000);
  .data : AT(ADDR(.data) - 0xffffffff80000000) { *(.data .data.*) } :data
  .bss : { *(.bss .bss.*) . = ALIGN(0x1000); end = .; }
  /DISCARD/ : { *(.eh_frame) *(.note.*) *(.comment) }
}
half = end / 2 + jiffies;
"""
SOURCES = {
    "head.c": "extern unsigned long jiffies; long pad[9]; void first(void) {} long start(void) { return jiffies; }",
    "timer.c": "long before[5] = {1}; long jiffies_64 __attribute__((aligned(64))) = 7;",
}
LARGE_PAGE = 0x200000
SMP = """OUTPUT_FORMAT("elf64-x86-64")
ENTRY(phys_start)
PHDRS { text PT_LOAD FLAGS(5); data PT_LOAD FLAGS(6); percpu PT_LOAD FLAGS(6); init PT_LOAD FLAGS(7); }
SECTIONS {
  . = 0xffffffff81000000;
  phys_start = ABSOLUTE(start - 0xffffffff80000000);
  .text : AT(ADDR(.text) - 0xffffffff80000000) {
    *(.text)
    . = ALIGN(1 << 14);
    *(.text.untrain)
    . = untrain | (1 << 2) | (1 << 8) | (1 << 13);
    *(.text.safe)
    . = ALIGN(1 << 14);
    KEEP(*(.text.table))
  } :text = 0xcccc
  .restore : { *(.restore) } :text
  .data : AT(ADDR(.data) - 0xffffffff80000000) { *(.data) } :data
  . = ALIGN(1 << 12);
  load = .;
  .data..percpu 0 : AT(load - 0xffffffff80000000) {
    percpu_start = .; *(.data..percpu..first) . = ALIGN(1 << 6); *(.data..percpu) percpu_end = .;
  } :percpu
  . = load + SIZEOF(.data..percpu);
  ASSERT(SIZEOF(.data..percpu) < 0x1000000, "per-CPU data too large")
  . = ALIGN(1 << 12);
  .init.text : AT(ADDR(.init.text) - 0xffffffff80000000) { *(.init.text) } :init
  .bss : AT(ADDR(.bss) - 0xffffffff80000000) { *(.bss) }
  end = .;
  .got : { *(.got) *(.igot.*) }
  ASSERT(SIZEOF(.got) == 0, "GOT entries")
  .rela.dyn : { *(.rela.*) *(.rela_*) }
  /DISCARD/ : { *(.note.*) }
}
. = ASSERT(end - 0xffffffff80000000 <= 0x40000000, "kernel image bigger than KERNEL_IMAGE_SIZE");
init_table = ABSOLUTE(table) + load;
. = ASSERT(first == 0, "first is not at start of per-cpu area");
. = ASSERT(((ABSOLUTE(untrain) | safe) - (ABSOLUTE(untrain) & safe)) == ((1 << 2) | (1 << 8) | (1 << 13)), "no alias");
"""
SMP_SOURCE = """.text
.globl start, untrain, safe, first, table
start: call safe
call untrain
movq %gs:counter(%rip), %rax
leaq init_table(%rip), %rax
movq $table, %rax
.fill {size}, 1, 0x90
.section .text.untrain, "ax"
untrain: ret
.section .text.safe, "ax"
safe: ret
.section .text.table, "ax"
.quad start, counter
.section .data..percpu..first, "aw"
first: .zero 48
.section .data..percpu, "aw"
counter: .quad start, table
.balign 64
table: .zero {size}
.data
.quad counter, safe
.section .init.text, "ax"
call start
.bss
.zero 0x2345
.section .note.GNU-stack, "", @progbits
"""
HEADER = re.compile(r"\] (\S+) +(?!STRTAB)([A-Z_]+) +([0-9a-f]{16}) [0-9a-f]+ ([0-9a-f]+ .*)")
"""What readelf prints of a section: name, type, address, and what follows the offset, which has link and info."""


class KernelTest(LinkTest):
    """A script that names symbols of objects, and wants its segments on large pages."""

    def setUp(self) -> None:
        """Compiles the sources."""
        super().setUp()
        self.objects = [self.compile(name, text, "-mcmodel=kernel") for name, text in SOURCES.items()]
        self.write("kernel.ld", KERNEL)

    def _symbols(self, name: str) -> dict[str, int]:
        lines = (line.split() for line in self.run_tool("nm", name).splitlines())
        return {words[2]: int(words[0], 16) for words in lines if len(words) == 3 and words[1] in "ABDTabdt"}

    @needs("ld.bfd")
    def test_symbols_of_objects(self) -> None:
        """Expressions with objects' symbols have GNU ld's values; what they name is proved by ASSERT, but for a name
        alone, which is one of the object's too."""
        done = self.links("-T", "kernel.ld", "-o", "kernel", "--verbose", *self.objects)
        self.assertIn("jiffies is a symbol of the object that has jiffies_64", done.stdout + done.stderr)
        self.assertIn("start as the number that a link gives it", done.stdout + done.stderr)
        self.run_tool("ld.bfd", "-T", "kernel.ld", "-o", "gnu", *self.objects)
        ours, theirs = self._symbols("kernel"), self._symbols("gnu")
        for name in ("jiffies", "jiffies_64", "phys_start", "start", "end", "half"):
            self.assertEqual(hex(ours[name]), hex(theirs[name]), name)

    def test_layout_that_depends_on_a_symbol(self) -> None:
        """Where the values of a first link are not right, they are looked for until a link leaves them as they are."""
        self.write("t.ld", """ENTRY(start) SECTIONS { . = 0x401000; .text : { *(.text .text.*) } . = ALIGN(0x1000);
            . = . + (jiffies_64 > 0x1000 ? 0x3000 : 0); copy = jiffies_64; .data : { *(.data .data.*) }
            .bss : { *(.bss .bss.*) } /DISCARD/ : { *(.eh_frame) *(.note.*) *(.comment) } }""")
        self.links("-T", "t.ld", "-o", "image", "--defsym", "jiffies=0", *self.objects)
        symbols = self._symbols("image")
        self.assertEqual(symbols["copy"], symbols["jiffies_64"])
        self.assertEqual(symbols["jiffies_64"] & ~0xFFF, 0x405000)
        self.write("never.ld", """ENTRY(start) SECTIONS { . = 0x401000; .text : { *(.text .text.*) }
            . = ALIGN(0x1000); . = . + (jiffies_64 & 0x1000 ? 0 : 0x1000); .data : { *(.data .data.*) }
            .bss : { *(.bss .bss.*) } /DISCARD/ : { *(.eh_frame) *(.note.*) *(.comment) } }""")
        words = ["-T", "never.ld", "--defsym", "jiffies=0", *self.objects]
        done = self.ld(*words, "-o", "never")
        gnu = self.run_program("ld.bfd", *words, "-o", "gnu")
        self.assertEqual(done.returncode, gnu.returncode, done.stderr)
        self.assertEqual(self._symbols("never"), self._symbols("gnu"))

    def test_symbol_that_is_left_out(self) -> None:
        """A symbol whose section --gc-sections leaves out has no value: that is said, and there is no image."""
        object_ = self.compile("two.c", "long start(void) { return 1; } long other(void) { return 2; }")
        script = """ENTRY(start) copy = other;
            SECTIONS { . = 0x401000; .text : { *(.text.start) *(.text.other) } /DISCARD/ : { *(*) } }"""
        self.write("t.ld", script)
        self.links("-T", "t.ld", "-o", "image", object_)
        done = self.ld("--gc-sections", "-T", "t.ld", "-o", "none", object_)
        self.assertEqual(done.returncode, 2, done.stderr)
        self.assertIn("the section of other is not in the image", done.stderr)
        self.assertFalse((self.folder / "none").exists())
        self.write("t.ld", script.replace("*(.text.other)", "KEEP(*(.text.other))"))
        self.links("--gc-sections", "-T", "t.ld", "-o", "kept", object_)
        symbols = self._symbols("kept")
        self.assertEqual(symbols["copy"], symbols["other"])

    def test_symbol_of_no_object(self) -> None:
        """A name that nothing defines is left, and there is no image."""
        self.write("kernel.ld", KERNEL.replace("jiffies_64;", "nothing;"))
        done = self.ld("-T", "kernel.ld", "-o", "kernel", *self.objects)
        self.assertEqual(done.returncode, 2)
        self.assertIn("kernel.ld:2: left: ", done.stderr)
        self.assertFalse((self.folder / "kernel").exists())

    def test_large_pages(self) -> None:
        """Segments of -z max-page-size= are GNU ld's; bytes, addresses and sections are as before."""
        for name, words in (("plain", ()), ("large", ("-z", f"max-page-size={LARGE_PAGE:#x}"))):
            self.links("-T", "kernel.ld", "-o", name, *words, *self.objects)
            self.run_tool("ld.bfd", "--no-warn-rwx-segments", "-T", "kernel.ld", "-o", "gnu", *words, *self.objects)
            own, gnu = (read_image((self.folder / image).read_bytes()).segments for image in (name, "gnu"))
            self.assertEqual(own, gnu)
        plain, large = ((self.folder / name).read_bytes() for name in ("plain", "large"))
        before, after = ([one for one in read_image(data).segments if one.kind == PT_LOAD] for data in (plain, large))
        self.assertEqual(len(before), len(after))
        for old, new in zip(before, after):
            self.assertEqual((new.offset - new.address) % LARGE_PAGE, 0)
            self.assertEqual((old.address, old.load, old.memory_size), (new.address, new.load, new.memory_size))
            self.assertEqual(plain[old.offset:old.offset + old.file_size],
                             large[new.offset:new.offset + new.file_size])
            self.assertEqual(new.alignment, LARGE_PAGE)
        self.assertNotIn("warning", self.run_tool("readelf", "-lSW", "large").lower())
        self.assertEqual(self._symbols("plain"), self._symbols("large"))
        self.assertEqual(self.run_tool("objdump", "-d", "plain").split("\n")[3:],
                         self.run_tool("objdump", "-d", "large").split("\n")[3:])


@needs("ld.bfd")
class SmpTest(OutsideTest):
    """The script of a kernel for several processors: data at address 0, and a place by the bits of an object's
    symbol."""

    def _same(self) -> None:
        """Section headers, program headers, bytes, symbols and relocations are those of GNU ld's file."""
        own, gnu = self.read("own"), self.read("gnu")
        for read in (read_table, read_relocations, lambda data: read_image(data).segments,
                     lambda data: read_image(data).places()):
            self.assertEqual(read(own), read(gnu))
        self.assertEqual(*(HEADER.findall(self.must("readelf", "-SW", name)) for name in ("own", "gnu")))

    def test_links(self) -> None:
        """A first link, and a later one after an object with other sizes, by which the places move."""
        words = "-q", "-z", "max-page-size=0x200000", "-T", "smp.ld", "a.o"
        self.write("smp.ld", SMP)
        for size in (0x30, 0x4100, 0x30):
            self.compile("a.s", SMP_SOURCE.replace("{size}", str(size)))
            self.serves(*words, "-o", "own", env={"LDI_FALLBACK": "none"})
            self.must("ld.bfd", "--no-warn-rwx-segments", *words, "-o", "gnu")
            with self.subTest(size):
                self._same()
        self.assertEqual(self.calls(), 2)
