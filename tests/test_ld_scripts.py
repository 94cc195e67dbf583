"""What scripts say of sections, names and the form of the file; each link beside GNU ld's image of the same words."""
from __future__ import annotations

from tests.beside import NONE, PLAIN, START, BesideTest
from tests.fuzz.images import differences
from tests.fuzz.images import read_image as read_all
from tests.images import EXECUTE, WRITE, Image, read_image
from tests.programs import LDI_WATCH, OutsideTest, needs
from tests.symbol_table import read_relocations, read_table
from tests.test_ld_kernel import HEADER

ENTRIES = START + """ push other@GOTPCREL(%rip)
 .weak other
 .section .init_array, "aw"
 .quad _start
 .section .fini_array.3, "aw"
 .quad _start
 .section .strings, "aMS", @progbits, 1
.Ltext: .string "text"
 .section .wide, "aMS", @progbits, 4
 .long 3, 0
 .section .eights, "awM", @progbits, 8
 .quad 1, 1
 .section .rest, "aw"
 .quad .Ltext
"""
TABLES = """SECTIONS { . = 0x400000; .text : { *(.text) } .data : { *(.data) *(.got) GOT *(.init_array)
  *(.fini_array*) *(.rest) } REST .mixed : { *(.strings .wide) } .eights : { *(.eights) } }
"""


ORDERED = START + """ .section .text.a, "ax"
 .balign 8
first: nop
 .section .late, "ax"
second: nop
 .section .order, "ao", @progbits, .text.a
 .quad first
 .section .beside, "o", @progbits, .late
 .quad second
 .section .kept, "aR"
 .quad 1
 .section .eh_frame, "a", @unwind
 .bss
 .skip 8
 .stabs "second:F(0,1)", 36, 0, 1, second
"""
HEADERS = """SECTIONS { . = 0x400000; .text : SUBALIGN(64) { *(.text .text.*) } .late 0x400800 : ALIGN(16) { *(.late) }
  .one : { *(.order) } .kept : { *(.kept) } .eh_frame : { *(.eh_frame) . = .; } .init_array : { *(.bss) }
  .empty : { *(.none) . = .; } .dynstr : { BYTE(0) } .dynamic : { QUAD(0) } .hash : { LONG(2) } STABS
  .rest : { *(.beside) } }
"""


class HeaderTest(BesideTest):
    """Section headers of what is loaded."""

    def headers(self, *words: str) -> None:
        """They are those of GNU ld's file, to which sections they refer too."""
        self.links(*words, "-o", "own", env=NONE)
        self.must("ld.bfd", "--no-warn-rwx-segments", *words, "-o", "gnu")
        own, gnu = (read_all(self.read(name), {}) for name in ("own", "gnu"))
        self.assertEqual(differences(gnu, own, with_headers=True), [], words)

    def test_flags_types_and_links(self) -> None:
        """Alignments that addresses have, SHF_LINK_ORDER and the like, types of sections, and what they refer to; empty
        sections too."""
        self.compile("a.s", ORDERED)
        self.compile("b.s", START.replace("_start", "other") + ORDERED.split("\n", 2)[2])
        for stabs in ("", ".stab : { *(.stab) BYTE(0) } .stabstr : { *(.stabstr) BYTE(0) }",
                      ".stab : { *(.stab) BYTE(0) } .stabstr 0 : { *(.stabstr) }"):
            self.write("t.ld", HEADERS.replace("STABS", stabs))
            for words in ((), ("-s",), ("-q",), ("--gc-sections", "-u", "first")):
                self.headers("-T", "t.ld", *words, "a.o", "b.o")

    def test_entries(self) -> None:
        """The size of the entries of tables, and of strings and constants that are merged."""
        objects = self.compile("a.s", ENTRIES), self.compile("b.s", ENTRIES.replace(START, ""))
        got = "*(.got.plt)"
        self.write("one.ld", TABLES.replace("GOT", got).replace("REST", ""))
        self.write("two.ld", TABLES.replace("GOT", "").replace("REST", f".table : {{ {got} }}"))
        for words in ((), ("-T", "one.ld"), ("-T", "two.ld"), ("-T", "two.ld", "-O2"), ("--build-id=0x12",)):
            self.same(*words, *objects)
            self.same_headers(words)

    def same_headers(self, words: tuple[str, ...]) -> None:
        """The section headers of both, in their order, the tables of symbols and the relocations are the same."""
        headers = [self.must("readelf", "-SW", name) for name in ("own", "gnu")]
        self.assertEqual(*(HEADER.findall(text) for text in headers), words)
        for read in (read_table, read_relocations):
            self.assertEqual(read(self.read("own")), read(self.read("gnu")), words)

    def test_sections_with_addresses(self) -> None:
        """GNU ld makes the sections of `--section-start`, `-Ttext` and the like before all others (ldlang.c,
        `map_input_to_output_sections`): their headers stand first, in the order of the options."""
        objects = self.compile("a.s", START + '.quad number\n.data\nnumber: .quad 4, _start\n.section .rodata, "a"\n'
                               '.quad 5\n.section more, "a"\n.quad 6\n.bss\n.skip 8\n.section .debug_x\n'
                               '.quad number\n'),
        late = "--section-start=more=0x20000000", "--section-start", ".data=0x10000000"
        self.write("t.ld", "SECTIONS { . = 0x400000; .debug_x 0 : { *(.debug_x) } .text : { *(.text) } "
                           ".none : { x = 1; } .data : { *(.data) } .kept : { y = .; } .rodata : { *(.rodata) } "
                           ".bss : { *(.bss) } }")
        for words in (("-Ttext=0x500000",), ("-Tdata=0x10000000",), ("-Tbss=0x10000000", "-Ttext=0x500000"), late,
                      ("-q", "-Tdata=0x10000000"), ("-q", *late), ("-s", *late), ("-T", "t.ld"), ("-q", "-T", "t.ld"),
                      ("-T", "t.ld", *late), ("-q", *late, "-T", "t.ld")):
            self.same(*words, *objects)
            self.same_headers(words)

    def test_address_that_is_not_aligned(self) -> None:
        """A section has the greatest alignment that its own and its address have (elf.c, `elf_fake_sections`)."""
        objects = self.compile("a.s", START + ".balign 64\n.data\n.balign 32\n.quad 1\n.bss\n.balign 4096\n.skip 8\n"),
        self.write("t.ld", "SECTIONS { .text 0x400021 : { *(.text) } =0 .data 0x500008 : { *(.data) } "
                           ".bss . : { . = ALIGN(8); *(.bss) } .none 0x600004 : { x = .; } }")
        for words in (("-T", "t.ld"), ("-q", "-T", "t.ld"), ("-Tdata=0x10000010",)):
            self.same(*words, *objects)
            self.same_headers(words)

    def test_empty_sections(self) -> None:
        """With `--emit-relocs` empty sections are in the file, with GNU ld's flags."""
        objects = self.compile("a.s", START), self.compile("b.s", '.data\n.bss\n.section .init_array, "aw"\n')
        for words in (("-q",), ("-q", "--build-id=0x12"), ()):
            self.same(*words, *objects)
            self.same_headers(words)


class ScriptTest(BesideTest):
    """What a script says."""

    def test_input_of_the_script_alone(self) -> None:
        """INPUT and GROUP of the script where the words name no object; a script without them has no input."""
        self.compile("a.s", START)
        for line in ("INPUT(a.o)", "GROUP(a.o)"):
            self.write("in.ld", f"{line}\n{PLAIN}")
            self.same("-T", "in.ld")
        self.write("t.ld", PLAIN)
        done = self.ld("-T", "t.ld", "-o", "none", env=NONE)
        self.assertEqual((done.returncode, done.stderr), (2, "ld.ldi: no input files\n"))
        self.assertEqual(self.ld("-T", "t.ld", "--verbose").returncode, 0)

    def test_input_of_the_script_alone_with_a_server(self) -> None:
        """The same by a server: the second call finds the object that the script names then."""
        self.compile("a.s", START)
        self.compile("b.s", START + ".long 4\n")
        for name in ("a.o", "b.o"):
            self.write("in.ld", f"INPUT({name})\n{PLAIN}")
            self.serves("-T", "in.ld", "-o", "own", env=NONE)
            self.must("ld.bfd", "-T", "in.ld", "-o", "gnu")
            self.assertEqual(read_image(self.read("own")).places(), read_image(self.read("gnu")).places())

    def test_text_is_not_writable(self) -> None:
        """Writable input sections in `.text`: neither the section nor its segment is writable, as GNU ld's."""
        self.compile("a.s", START + '.data\n.quad 1\n.section .init_array, "aw"\n.quad 2\n')
        taken = "*(.text) KEEP(*(.init_array)) *(.data*)"
        for script in (f"SECTIONS {{ . = 0x400000; .text : {{ {taken} }} }}",
                       f"PHDRS {{ all PT_LOAD; }} SECTIONS {{ . = 0x400000; .text : {{ {taken} }} :all }}"):
            self.write("t.ld", script)
            own, gnu = self.same("-e", "_start", "-T", "t.ld", "a.o")
            for image in (own, gnu):
                self.assertEqual(image.section(".text").flags & (WRITE | EXECUTE), EXECUTE)
                self.assertEqual(image.rights(0x400000) & 7, 5)
        done = self.run_program(LDI_WATCH, "--once", "-T", "t.ld", "-e", "_start", "-z", "norelro", "-o", "seen", "a.o")
        self.assertEqual(done.returncode, 0, done.stderr)
        self.assertEqual(read_image(self.read("seen")).rights(0x400000) & 7, 5)

    def test_two_sections_of_one_name(self) -> None:
        """Places and bytes of output sections that have one name."""
        own, gnu = self.two()
        self.assertEqual([one[1:] for one in own.places()], [one[1:] for one in gnu.places()])

    def test_names_and_flags_of_two_sections_of_one_name(self) -> None:
        """The name is written twice, with the flags of each."""
        own, gnu = self.two()
        self.assertEqual(*([(one.name, one.flags) for one in image.sections] for image in (own, gnu)))

    def test_large_model(self) -> None:
        """Sections with SHF_X86_64_LARGE, under the default script and under one that leaves them to be orphans."""
        name = self.compile("large.c", """int big[100000], data[70000] = {5};
            static const int table[50000] = {1, 2};
            int _start(void) { volatile int at = 3; return big[at] + data[at] + table[at]; }""", "-mcmodel=medium")
        self.write("t.ld", PLAIN)
        for words in (["-static"], ["-T", "t.ld"], ["-T", "t.ld", "--gc-sections"]):
            found = [[(one.name, one.flags) for one in image.sections if one.name.startswith(".l")]
                     for image in self.same(*words, name)]
            self.assertEqual(found[0], found[1])
            self.assertEqual(len(found[0]), 3)

    def two(self) -> tuple[Image, Image]:
        """Images with two sections `.text`, and three `.data`."""
        self.compile("a.s", START + '.data\n.quad 1\n.section .init.text, "ax"\nnop\n.section .rodata, "a"\n.quad 4\n')
        self.write("t.ld", """SECTIONS { . = 0x1000; .text : { *(.text) } . = 0x2000; .data : { *(.data) } . = 0x3000;
                              .text : { *(.init.text) } .data : { *(.rodata) } .data : { LONG(1) } }""")
        return self.both("-e", "_start", "-T", "t.ld", "a.o")

    def test_condition_of_numbers(self) -> None:
        """What a condition of numbers alone leaves out may name what nothing defines, as in coreboot's script."""
        self.compile("a.s", START + ".data\n.long 5\n")
        for test in ("0 ? nothing : 0x80", "1 - 1 ? nothing : 4", "!0 ? 8 : nothing"):
            self.write("t.ld", f"""ENTRY(_start) SECTIONS {{ . = 0x1000; .text : {{ *(.text) }}
                .data : {{ *(.data) heap = .; . += ({test}); }} x = ({test}); /DISCARD/ : {{ *(.note*) }} }}""")
            self.same("-T", "t.ld", "a.o")

    def test_segment_start(self) -> None:
        """-Ttext-segment moves the default script's sections, and SEGMENT_START of a script of the user."""
        self.compile("a.s", START + '.data\n.quad 1\n')
        own, gnu = self.both("-Ttext-segment=0x700000", "a.o")
        self.assertEqual(own.places(), gnu.places())
        self.write("t.ld", PLAIN.replace("0x400000", 'SEGMENT_START("text-segment", 0x400000 + (2 * (8)))'))
        for words in ((), ("-Ttext-segment", "800000")):
            self.same(*words, "-T", "t.ld", "a.o")

    def test_words_of_memory(self) -> None:
        """`l`, `o`, `len` and `org` are symbols in expressions, and no names where a statement begins."""
        for word in ("l", "o", "len", "org"):
            self.compile("a.s", f".globl _start, {word}\n_start: nop\n.data\n{word}: .quad {word}\n")
            self.write("good.ld", PLAIN.replace(".bss", f"copy = {word} + 1; .bss", 1))
            self.same("-T", "good.ld", "a.o")
            self.compile("b.s", START)
            self.write("bad.ld", f"{word} = 5;\n{PLAIN}")
            for env in (NONE, {}):
                self.assertNotEqual(self.ld("-T", "bad.ld", "b.o", "-o", "bad", env=env).returncode, 0)
                self.assertFalse((self.folder / "bad").exists())


@needs("ld.bfd")
class FlatTest(OutsideTest):
    """OUTPUT_FORMAT("binary")."""

    SCRIPT = """OUTPUT_FORMAT("binary") OUTPUT_ARCH(i386:x86-64)
SECTIONS { . = 0; .header : { *(.header) } . = ALIGN(512); .text : { *(.data) . = ALIGN(512); }
           .reloc : { *(.reloc) . = ALIGN(512); } .sbat : { *(.sbat) . = ALIGN(512); } /DISCARD/ : { *(*) } }
"""

    def compare(self, *words: str, env: dict[str, str]) -> str:
        """What is said of a flat image, which is that of GNU ld."""
        done = self.links(*words, "-o", "own", env=env)
        self.must("ld.bfd", *words, "-o", "gnu")
        self.assertEqual(self.read("own"), self.read("gnu"))
        return done.stderr

    def test_loaded(self) -> None:
        """A file of sections that are loaded: nothing is said of an image that is ELF."""
        self.compile("a.s", '.section .header, "a"\n.ascii "MZ"\n.data\n.long 4\n.section .sbat, "a"\n.ascii "sbat"\n')
        self.write("t.ld", self.SCRIPT)
        self.assertEqual(self.compare("-T", "t.ld", "a.o", env=NONE), "")

    def test_sections_of_noload(self) -> None:
        """NOLOAD takes no memory in a flat file, and its bytes are not there (ldlang.c, `lang_add_section`), as in the
        boot sector of memtest86+; what stands behind it begins where it begins, which is GNU ld's to link."""
        self.compile("a.s", '.section .header, "a"\n.short end\n.data\n.long 4\n.bss\n.skip 12\n')
        script = """%s SECTIONS { . = 0; .header : { *(.header) } .image (NOLOAD) : { start = .; *(%s) end = .; }
            size = end - start; %s /DISCARD/ : { *(*) } }"""
        for taken in (".data", ".bss", ".data .bss"):
            for form, words in (('OUTPUT_FORMAT("binary")', ()), ("", ("--oformat", "binary"))):
                for more in ("", "x = .;", ". = 0x40; .more : { LONG(7) LONG(end) }", ".rest 0x80 : { LONG(8) }"):
                    self.write("t.ld", script % (form, taken, more))
                    self.assertEqual(self.compare(*words, "-T", "t.ld", "a.o", env=NONE), "", (taken, more))
                for more in (".more : { LONG(7) }",
                             ".more : { LONG(end) } x = .; z = .; .last 0x60 (NOLOAD) : { . += 4; y = .; }"):
                    self.write("t.ld", script % (form, taken, more))
                    self.compare(*words, "-T", "t.ld", "a.o", env={})

    def test_as_objects_have_it(self) -> None:
        """The default script: there are no headers to count, and neither strings nor entries of `.eh_frame` are merged,
        as the output is no ELF file."""
        text = "{}.cfi_startproc\nnop\n.cfi_endproc\nlea .Ltext(%rip), %rax\n.quad .Ltext, _start\n" \
               '.section .rodata.str1.1, "aMS", @progbits, 1\n.string "one"\n.Ltext: .string "text"\n'
        objects = [self.compile(name, text.format(start)) for name, start in (("a.s", START), ("b.s", ""))]
        self.assertEqual(self.compare("--oformat", "binary", *objects, env=NONE), "")
        self.write("t.ld", "SECTIONS { . = 0x100000 + SIZEOF_HEADERS; .all : { *(.text .rodata* .eh_frame) } =0 }")
        self.assertEqual(self.compare("--oformat=binary", "-T", "t.ld", *objects, env=NONE), "")
        # What GNU ld leaves of sections and of references by a table is its own.
        table = self.compile("c.s", "mov number@GOTPCREL(%rip), %rax\n.data\n.globl number\nnumber: .quad 1\n")
        group = self.compile("d.s", '.section .text.f, "axG", @progbits, f, comdat\n.weak f\nf: nop\n')
        for words, why in (((table,), "references by a global offset table"), ((group,), "a group of sections"),
                           (("--gc-sections",), "--gc-sections")):
            self.assertIn(why, self.compare("--oformat", "binary", *objects, *words, env={}))

    def test_sections_that_are_not_loaded(self) -> None:
        """`.reloc` without the flag ALLOC, as memtest86+ has it: it is linked, or the link goes to GNU ld, or none is
        made."""
        self.compile("a.s", '.section .header, "a"\n.ascii "MZ"\n.data\n.long 4\n.section .reloc\n.long 5, 6\n'
                            '.section .sbat, "a"\n.ascii "sbat"\n')
        self.write("t.ld", self.SCRIPT)
        said = self.compare("-T", "t.ld", "a.o", env={})
        if said:  # a linker that does not link such sections
            self.assertIn(".reloc", said)
        done = self.ld("-T", "t.ld", "a.o", "-o", "none", env=NONE)
        if done.returncode == 0:  # a linker that links such sections
            self.assertEqual(self.read("none"), self.read("gnu"))
        else:
            self.assertFalse((self.folder / "none").exists())
