"""INSERT AFTER and BEFORE: sections of one script among those of another, or of the default one."""
from __future__ import annotations

from tests.images import Image, read_image
from tests.programs import OutsideTest, needs
from tests.symbol_table import table_differences

SCRIPT = """ENTRY(_start)
SECTIONS { . = 0x400000; .text : { *(.text .text.*) } x = .; . = ALIGN(4096); .data : { *(.data) }
           .bss : { *(.bss) } e = .; /DISCARD/ : { *(.note*) } }
"""
OBJECT = """.globl _start
_start: nop
.section .text.foo,"ax"
nop
nop
.section .one,"aw"
.long 1, extra, extra_end
.weak extra, extra_end
.section .two,"a"
.byte 2
.data
.long 5
.bss
.skip 10
.section .orphan,"aw"
.long 7
"""
INSERTS = {
    "after.ld": "SECTIONS {\n  .one : { extra = .; *(.one) extra_end = .; }\n  .foo : { *(.text.foo) }\n} INSERT "
                "AFTER .text;\n",
    "before.ld": "mark = 5;\nSECTIONS { . = ALIGN(64); here = .; .two : { *(.two) . = ALIGN(16); } }\nINSERT BEFORE "
                 ".data;\n",
    "chain.ld": "SECTIONS { .two : { *(.two) } } INSERT AFTER .one; SECTIONS { .one : { *(.one) } } INSERT AFTER "
                ".data;\n",
    "data.ld": "SECTIONS { .new : { LONG(4) new_end = .; } } INSERT AFTER .data;\n",
}


@needs("ld.bfd")
class InsertTest(OutsideTest):
    """Links of several scripts."""

    def setUp(self) -> None:
        """The object and the scripts."""
        super().setUp()
        self.compile("a.s", OBJECT)
        self.write("t.ld", SCRIPT)
        for name, text in INSERTS.items():
            self.write(name, text)

    def image(self, name: str) -> Image:
        """An image in the folder."""
        return read_image(self.read(name))

    def same(self, words: tuple[str, ...], name: str) -> None:
        """An image has the sections and symbols of GNU ld's."""
        self.must("ld.bfd", *words, "-o", "gnu")
        gnu, own = self.image("gnu"), self.image(name)
        self.assertEqual(sorted(own.places()), sorted(gnu.places()), words)
        self.assertEqual({name: own.symbols.get(name) for name in gnu.symbols}, gnu.symbols, words)
        self.assertEqual(own.entry, gnu.entry)

    def both(self, *words: str) -> None:
        """Links by both, without a word."""
        done = self.links(*words, "-o", "own", env={"LDI_FALLBACK": "none"})
        self.same(words, "own")
        self.assertEqual(done.stderr, "", words)

    def test_scripts(self) -> None:
        """Before a script, several of them, assignments among them, orphans beside them."""
        for scripts in (("after.ld",), ("before.ld",), ("after.ld", "before.ld"), ("before.ld", "after.ld"),
                        ("chain.ld",), ("data.ld", "after.ld", "before.ld")):
            words = [word for script in (*scripts, "t.ld") for word in ("-T", script)]
            self.both(*words, "a.o")
            self.both("--gc-sections", *words, "a.o")

    def test_addresses_between_scripts(self) -> None:
        """`-Tdata=` between two scripts makes its section between theirs, beside which orphans stand; a symbol of an
        empty section goes by that."""
        self.write("empty.ld", "SECTIONS { .new : { *(.one) } } INSERT AFTER .heap;\n")
        self.write("s.ld", """SECTIONS { . = 0x1000; .heap : { *(.none) } .stack : { top = 4; *(.nothing) }
            .rodata : { *(.two) . = . + 8; } .rest : { *(.text* .data .bss .orphan) } }\n""")
        self.compile("c.s", ' .ident "c"\n')
        address = "-Tdata=0x875a80"
        for words in ((address, "-T", "empty.ld", "-T", "s.ld"), ("-T", "empty.ld", address, "-T", "s.ld"),
                      ("-T", "empty.ld", "-T", "s.ld", address)):
            self.both(*words, "a.o", "c.o")
            self.assertEqual(table_differences(self.read("gnu"), self.read("own")), [], words)

    def test_default_script(self) -> None:
        """A script of INSERT alone augments the default one."""
        self.write("whole.ld", SCRIPT + INSERTS["after.ld"])
        for scripts in (("after.ld",), ("data.ld",), ("after.ld", "data.ld"), ("whole.ld",)):
            self.both(*(word for script in scripts for word in ("-T", script)), "a.o")

    def test_with_a_server(self) -> None:
        """Edits of the object and of the script that is inserted."""
        words = ("-T", "after.ld", "-T", "before.ld", "-T", "t.ld", "a.o")
        after = INSERTS["after.ld"]
        for name, text in (("a.s", OBJECT), ("a.s", OBJECT + ".section .two\n.long 3\n"),
                           ("a.s", OBJECT + ".text\nnop\n"),
                           ("after.ld", after.replace("*(.one)", "LONG(9) *(.one)")), ("after.ld", after),
                           ("a.s", OBJECT.replace(".orphan", ".other")),
                           ("after.ld", after.replace("AFTER .text", "AFTER .data"))):
            if name.endswith(".s"):
                self.compile(name, text)
            else:
                self.write(name, text)
            self.serves(*words, "-o", "served", env={"LDI_FALLBACK": "none"})
            self.same(words, "served")

    def test_two_values(self) -> None:
        """A name that two scripts assign goes to GNU ld."""
        self.write("twice.ld", "x = 4; SECTIONS { .two : { *(.two) } } INSERT AFTER .text;\n")
        done = self.links("-T", "twice.ld", "-T", "t.ld", "a.o", "-o", "own")
        self.assertIn("linked by ld.bfd", done.stderr)

    def test_in_front(self) -> None:
        """What is put in front of the first output section, where GNU ld 2.40 loses statements or ends, is left."""
        self.write("front.ld", "SECTIONS { . = . + 16; .two : { *(.two) } } INSERT BEFORE .text;\n")
        done = self.ld("-T", "front.ld", "-T", "t.ld", "a.o", "-o", "own", "--no-fallback")
        self.assertEqual(done.returncode, 2)
        self.assertIn("left: INSERT BEFORE .text", done.stderr)
