"""`--emit-relocs`: the relocations of all sections, each table beside GNU ld's of the same words."""
from __future__ import annotations

from tests.symbol_table import Relocation, read_relocations, read_table
from tests.test_ld_symbols import FIRST, NONE, SCRIPT, SECOND, SymbolTest

WITHOUT_ALIAS = SCRIPT.replace("alias = function; near = function + 4;", "")


class RelocationTest(SymbolTest):
    """Links by both linkers."""

    def same_relocations(self, *words: str) -> dict[str, list[Relocation]]:
        """The relocations of the image by `ld.ldi`, which are those of GNU ld's, as is the table of symbols."""
        self.same("-q", *words)
        own, gnu = read_relocations(self.read("own")), read_relocations(self.read("gnu"))
        self.assertEqual(own, gnu)
        return own

    def test_relocations(self) -> None:
        """Offsets are addresses; a reference to a section's symbol is to that of the output section."""
        found = self.same_relocations("-T", "t.ld", *self.objects())
        self.assertIn(".rela.text of .text", found)
        self.assertIn(".rela.data of .data", found)

    def test_options(self) -> None:
        """Local symbols that are left out, and that a relocation needs, are there all the same."""
        objects = self.objects()
        for words in (("-x",), ("-X",), ("--discard-none",), ("--gc-sections",), ("--gc-sections", "-x")):
            with self.subTest(words):
                self.same_relocations(*words, "-T", "t.ld", *objects)

    def test_empty_sections(self) -> None:
        """An output section stays that has input sections, all of them empty."""
        self.write("t.ld", WITHOUT_ALIAS)
        self.same_relocations("-T", "t.ld", self.compile("a.c", "int start(void) { return 1; }"))

    def test_position_independent(self) -> None:
        """References by a global offset table that became others."""
        self.write("t.ld", SCRIPT)
        flags = "-fcommon", "-fpic"
        first = FIRST.replace("if (maybe) maybe();", "")
        self.same_relocations("-T", "t.ld", self.compile("a.c", first, *flags), self.compile("b.c", SECOND, *flags))

    def test_by_a_table(self) -> None:
        """A reference that needs the table: GNU ld links."""
        self.write("t.ld", WITHOUT_ALIAS)
        name = self.compile("a.s", ".globl start\nstart: pushq here@GOTPCREL(%rip)\n.data\nhere: .quad 4\n")
        done = self.ld("-q", "-T", "t.ld", name, "-o", "own")
        self.assertEqual(done.returncode, 0, done.stderr)
        self.assertIn("references by a global offset table with --emit-relocs: linked by ld.bfd", done.stderr)

    def test_names_of_what_is_not_loaded(self) -> None:
        """Names and local symbols that relocations of sections that are not loaded refer to alone."""
        self.write("t.ld", "SECTIONS { . = 0x1000; .text : { *(.text) } .info (INFO) : { *(.data) } }")
        name = self.compile("a.s",
                            ".globl start\nstart: nop\n.weak nowhere, here\n.data\n.quad nowhere\n.section .own\n"
                            ".quad here, local\n.section .rodata.str1.1,\"aMS\",@progbits,1\nlocal: .string \"a\"\n"
                            ".section .note.GNU-stack\n")
        for words in ((), ("-x",)):
            self.same_relocations("-e", "start", *words, "-T", "t.ld", name)

    def test_discarded(self) -> None:
        """References to what `--gc-sections` leaves out are of no type, and bring no name into the table of symbols."""
        self.write("t.ld", "ENTRY(start) SECTIONS { . = 0x1000; .text : { *(.text*) } .data : { *(.data*) } }")
        one = self.compile("a.s", ".globl start, used, unused\n.weak nowhere\n.section .text.start,\"ax\"\n"
                           "start: call used\n.section .text.used,\"ax\"\nused: ret\n.section .text.unused,\"ax\"\n"
                           "unused: call other\nlocal: ret\n.section .debug_one\n"
                           ".quad unused, used, local, nowhere, other, .text.unused\n.section .note.GNU-stack\n")
        other = self.compile("b.s", '.globl other\n.section .text.other,"ax"\nother: call unused\n'
                             ".section .debug_one\n.quad other, unused, used\n.section .note.GNU-stack\n")
        for words in ((), ("--gc-sections",), ("--gc-sections", "-x"), ("--gc-sections", "-S")):
            with self.subTest(words):
                self.same_relocations(*words, "-T", "t.ld", one, other)

    def test_debug_information(self) -> None:
        """Strings of debug information are merged; the reference is to the section that has them all."""
        self.write("t.ld", WITHOUT_ALIAS)
        flags = "-fcommon", "-g"
        for words in ((), ("--gc-sections",), ("-O0",)):
            with self.subTest(words):
                found = self.same_relocations(*words, "-T", "t.ld", self.compile("a.c", FIRST, *flags),
                                              self.compile("b.c", SECOND, *flags))
                self.assertIn(".rela.debug_info of .debug_info", found)

    def test_bounds_that_go(self) -> None:
        """`__start_NAME` that GNU ld takes back, as no output section NAME has the sections: its visibility stays."""
        self.write("t.ld", "SECTIONS { . = 0x1000; .text : { *(.text) *(cmds) } }")
        self.same_relocations("-e", "start", "-T", "t.ld",
                              self.compile("a.s", ".globl start\nstart: .weak __start_cmds\n"
                              '.quad __start_cmds\n.section cmds,"a"\n.byte 1\n.section .note.GNU-stack\n'))

    def test_first_values(self) -> None:
        """GNU ld keeps an entry where a symbol is no 32 bits before sections have places: that is said."""
        self.write("t.ld", "SECTIONS { . = 0x1000; .text : { *(.text) } .data : { far = -1; near = 2; LONG(0) } }")
        name = self.compile("a.s",
                            ".globl start\nstart: cmpl far@GOTPCREL(%rip), %eax\ncmpl near@GOTPCREL(%rip), %eax\n"
                            ".section .note.GNU-stack\n")
        done = self.links("-e", "start", "-T", "t.ld", name, "-o", "own", env=NONE)
        self.assertIn("changed: references by a global offset table to far: GNU ld has entries of .got", done.stderr)

    def test_later_calls(self) -> None:
        """A server's tables are those of a link from scratch."""
        words = "-q", "-T", "t.ld", *self.objects()
        for text in (SECOND, SECOND.replace("x + local_data", "x * 7 - local_data * x"), SECOND):
            self.compile("b.c", text, "-fcommon")
            self.serves(*words, "-o", "own", env=NONE)
            self.must("ld.bfd", *words, "-o", "gnu")
            self.assertEqual(read_relocations(self.read("own")), read_relocations(self.read("gnu")))
            self.assertEqual(read_table(self.read("own")), read_table(self.read("gnu")))
        self.assertEqual(self.calls(), 2)


del SymbolTest  # its subclasses here are the tests
