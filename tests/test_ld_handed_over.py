"""What `ldi` does not link is linked by GNU ld, which one line says; faults of the program stay faults."""
from __future__ import annotations

import os
from pathlib import Path

from tests.images import read_image
from tests.programs import LD_LDI, Done, OutsideTest, needs

PLAIN = """ENTRY(_start)
SECTIONS { . = 0x400000; .text : { *(.text) } .rodata : { *(.rodata*) } . = ALIGN(4096); .data : { *(.data) }
           .bss : { *(.bss) *(COMMON) } /DISCARD/ : { *(.comment) *(.note*) *(.eh_frame) } }
"""
START = ".globl _start\n_start: nop\n"
TLS = "_Thread_local int each = 4; int _start(void) { return each; }\n"


@needs("ld.bfd")
class HandedOverTest(OutsideTest):
    """Links that GNU ld makes: without LDI_FALLBACK in the environment too."""

    def setUp(self) -> None:
        """A start, and a script that has what each link needs."""
        super().setUp()
        self.compile("a.s", START)
        self.write("t.ld", PLAIN)

    def hands_over(self, *words: str, why: str, env: dict[str, str] | None = None) -> Done:
        """A link that one line says GNU ld made, with the reason, and whose image is that of GNU ld; with
        --no-fallback and LDI_FALLBACK=none none is made."""
        for refused in (self.ld(*words, "-o", "none", env={"LDI_FALLBACK": "none"}),
                        self.ld("--no-fallback", *words, "-o", "none", env=env)):
            self.assertIn(refused.returncode, (1, 2), refused.stderr)
            self.assertNotIn(": linked by", refused.stderr)
            self.assertNotEqual(refused.stderr, "")
            self.assertFalse((self.folder / "none").exists())
        done = self.ld(*words, "-o", "own", env=env)
        self.assertEqual(done.returncode, 0, done.stderr)
        lines = [line for line in done.stderr.splitlines() if line.startswith("ld.ldi: ")]
        self.assertEqual(len(lines), 1, done.stderr)
        self.assertTrue(lines[0].endswith(": linked by ld.bfd"), done.stderr)
        self.assertIn(why, lines[0])
        self.must("ld.bfd", *words, "-o", "gnu")
        self.assertEqual(self.read("own"), self.read("gnu"))
        return done

    def test_options(self) -> None:
        """-r, -shared, -pie, another machine, options that are not made."""
        self.compile("pic.c", "int f(void) { return 4; }\n", "-fPIC")
        self.compile("small.s", START, "-m32")
        for words, why in ((("-r", "a.o"), "-r"), (("-shared", "pic.o"), "-shared"), (("-pie", "a.o"), "-pie"),
                           (("-m", "elf_i386", "small.o"), "-m elf_i386"), (("-q", "-s", "-T", "t.ld", "a.o"), "-s"),
                           (("--split-by-file", "-T", "t.ld", "a.o"), "--split-by-file")):
            with self.subTest(words=words):
                self.hands_over(*words, why=why)

    def test_objects(self) -> None:
        """Thread-local storage, position-independent code, 32 bits without -m: the line names the object."""
        self.compile("tls.c", TLS)
        self.compile("got.c", 'int other; int _start(void) { __asm__(".long other@GOT"); return 4; }\n')
        self.hands_over("-e", "_start", "tls.o", why="tls.o")
        self.hands_over("-T", "t.ld", "got.o", why="got.o")

    def test_format_of_the_script(self) -> None:
        """OUTPUT_FORMAT of 32 bits: no image of 64 bits comes of it."""
        self.compile("small.s", START, "-m32")
        self.write("small.ld", "OUTPUT_FORMAT(elf32-i386)\nOUTPUT_ARCH(i386)\n" + PLAIN)
        self.hands_over("-T", "small.ld", "small.o", why="elf32-i386")

    def test_scripts(self) -> None:
        """OVERLAY, and INSERT with a name that has two values: what is left of a script."""
        self.compile("b.s", '.section .one, "a"\n.long 1\n.section .two, "a"\n.long 2\n')
        begin, end = PLAIN.split(". = ALIGN(4096);")
        self.write("overlay.ld", f"{begin} OVERLAY : {{ .one {{ *(.one) }} .two {{ *(.two) }} }} {end}")
        self.write("insert.ld",
                   "x = 1; x = 2; SECTIONS { .one : { *(.one) } .two : { *(.two) } } INSERT AFTER .rodata;\n")
        self.hands_over("-T", "overlay.ld", "a.o", "b.o", why="overlay.ld:2")
        self.hands_over("-T", "insert.ld", "-T", "t.ld", "a.o", "b.o", why="INSERT")

    def test_empty_orphan(self) -> None:
        """A reference to an empty section that no statement takes, by a symbol without a name."""
        self.compile("c.s", ".long .table\n.section .table, \"a\"\n")
        self.hands_over("-T", "t.ld", "a.o", "c.o", why=".table")

    def test_names(self) -> None:
        """Two strong definitions where GNU ld is to let them pass."""
        self.compile("b.s", ".globl other\n.data\nother: .long 1\n")
        self.compile("c.s", ".globl other\n.data\nother: .long 2\n")
        for words in (("-z", "muldefs"), ("--allow-multiple-definition",)):
            self.hands_over(*words, "-T", "t.ld", "a.o", "b.o", "c.o", why="other")
        self.compile("d.s", ".globl _start\n_start: call nowhere\n")
        for words in (("--unresolved-symbols=ignore-all",), ("-z", "undefs"), ("--warn-unresolved-symbols",)):
            self.hands_over(*words, "-T", "t.ld", "d.o", why="nowhere")

    def test_no_entry(self) -> None:
        """An entry symbol that nothing defines, or that is discarded, is no error to GNU ld: the entry is the same."""
        self.write("no.ld", PLAIN.replace("ENTRY(_start)", "ENTRY(nothing)"))
        self.write("gone.ld", PLAIN.replace(".text : { *(.text) }", ".text : { LONG(1) } /DISCARD/ : { *(.text) }"))
        for words in (("-T", "no.ld"), ("-T", "t.ld", "-e", "nothing"), ("-T", "gone.ld"),
                      ("-T", "gone.ld", "-e", "3")):
            self.links(*words, "a.o", "-o", "own")
            self.must("ld.bfd", *words, "a.o", "-o", "gnu")
            self.assertEqual(read_image(self.read("own")).entry, read_image(self.read("gnu")).entry)

    def test_fatal_warnings(self) -> None:
        """A link ends where GNU ld's does, for what GNU ld warns of; without a warning it is a link as any other."""
        self.compile("said.s", START + '.data\n.quad 3\n.section .note.GNU-stack, "", @progbits\n')
        self.compile("more.s", ".data\n.quad 3\n")
        self.write("one.ld", "SECTIONS { . = 0x400000; .all : { *(.text) *(.data) } }\n")
        own = ("-T", "t.ld", "said.o")
        for words, is_warned in (
                (own, False), ((*own, "-z", "nothing"), True), ((*own, "-e", "nothing"), True),
                (("-w", *own, "-e", "nothing"), False), ((*own, "more.o"), True),
                ((*own, "more.o", "--no-warn-execstack"), False), (("-T", "one.ld", "said.o"), True),
                (("-T", "one.ld", "said.o", "--no-warn-rwx-segments"), False)):
            with self.subTest(words=words):
                done = self.ld("--fatal-warnings", *words, "-o", "own")
                gnu = self.run_program("ld.bfd", "--fatal-warnings", *words, "-o", "gnu").returncode
                self.assertEqual((done.returncode, gnu), (int(is_warned),) * 2, done.stderr)
                self.assertEqual("linked by ld.bfd" in done.stderr, is_warned, done.stderr)

    def test_faults_of_the_program(self) -> None:
        """An undefined symbol, two definitions, a full region, an ASSERT, a value that does not fit, a missing file: no
        other linker is asked."""
        self.compile("u.s", ".globl _start\n_start: call nowhere\n")
        self.compile("b.s", ".globl _start\n_start: nop\n")
        self.compile("far.s", ".globl _start\n_start: .long far\n")
        self.write("full.ld", "MEMORY { r : ORIGIN = 0x1000, LENGTH = 1 } SECTIONS { .text : { *(.text) LONG(1) } > r "
                              "/DISCARD/ : { *(*) } }")
        self.write("assert.ld", PLAIN + 'ASSERT(SIZEOF(.text) == 77, "no")\n')
        for words, said in ((("-T", "t.ld", "u.o"), "nowhere"), (("-T", "t.ld", "a.o", "b.o"), "_start"),
                            (("-T", "full.ld", "a.o"), "r"), (("-T", "assert.ld", "a.o"), "no"),
                            (("-T", "t.ld", "--defsym=far=0x123456789a", "far.o"), "far")):
            with self.subTest(words=words):
                done = self.ld(*words, "-o", "out")
                self.assertEqual(done.returncode, 1, done.stderr)
                self.assertIn(said, done.stderr)
                self.assertNotIn(": linked by", done.stderr)
                self.assertFalse((self.folder / "out").exists())
        self.assertEqual(self.ld("-T", "t.ld", "none.o", "-o", "out").returncode, 3)


@needs("ld.bfd")
class WhichLinkerTest(OutsideTest):
    """Which linker it is."""

    def setUp(self) -> None:
        """An object, and a folder in which `ld` and `ld.bfd` are `ld.ldi`, as for `gcc -B`."""
        super().setUp()
        self.compile("a.s", START)
        self.own = self.folder / "own"
        self.own.mkdir()
        for name in ("ld", "ld.bfd"):
            (self.own / name).symlink_to(LD_LDI)

    def path(self, *folders: Path) -> dict[str, str]:
        """An environment with these folders before those of PATH."""
        return {"PATH": os.pathsep.join([*map(str, folders), os.environ["PATH"]])}

    def test_never_itself(self) -> None:
        """The folder of `gcc -B` on PATH, before others and alone; a script there that leads back ends."""
        done = self.ld("-r", "a.o", "-o", "r.o", env=self.path(self.own))
        self.assertEqual((done.returncode, done.stderr), (0, "ld.ldi: -r: relocatable output: linked by ld.bfd\n"))
        done = self.run_program("/usr/bin/env", LD_LDI, "-r", "a.o", "-o", "s.o", env={"PATH": str(self.own)})
        self.assertEqual(done.returncode, 2, done.stderr)
        self.assertFalse((self.folder / "s.o").exists())
        back = self.folder / "back"
        self.write("back/ld.bfd", f'#!/bin/sh\necho >> "{self.folder}/calls"\nexec "{LD_LDI}" "$@"\n').chmod(0o755)
        done = self.ld("-r", "a.o", "-o", "s.o", env=self.path(back))
        self.assertEqual(done.returncode, 2, done.stderr)
        self.assertEqual(self.read("calls"), b"\n")

    def test_ld_where_there_is_no_ld_bfd(self) -> None:
        """`ld` is taken where PATH has no `ld.bfd`; with neither the link is refused."""
        only = self.folder / "only"
        self.write("only/ld", '#!/bin/sh\necho "$@" > called\n').chmod(0o755)
        done = self.run_program("/usr/bin/env", LD_LDI, "-r", "a.o", "-o", "r.o", env={"PATH": str(only)})
        self.assertEqual(done.returncode, 0, done.stderr)
        self.assertEqual(self.read("called"), b"-r a.o -o r.o\n")
        self.assertTrue(done.stderr.endswith(": linked by ld\n"), done.stderr)

    def test_named(self) -> None:
        """LDI_FALLBACK that names no linker is said, with status 3, also of a link that has a fault here."""
        self.write("t.ld", PLAIN)
        self.compile("b.s", '.section .more, "a"\n.text\n.long .more\n')
        for words in (("-r", "a.o"), ("-T", "t.ld", "a.o", "b.o")):
            for name, why in (("no-such-linker", "no such linker"), (LD_LDI, "ld.ldi itself"), ("ld 'x", "quotation")):
                done = self.ld(*words, "-o", "image", env={"LDI_FALLBACK": name})
                self.assertEqual(done.returncode, 3, done.stderr)
                self.assertIn(why, done.stderr)
                self.assertFalse((self.folder / "image").exists())

    def test_status(self) -> None:
        """The status is that of the other linker."""
        self.write("only/ld.bfd", "#!/bin/sh\nexit 7\n").chmod(0o755)
        self.assertEqual(self.ld("-r", "a.o", env=self.path(self.folder / "only")).returncode, 7)

    @needs("make")
    def test_a_build(self) -> None:
        """A build of a library, an object by -r and a program of glibc goes through by LD and `gcc -B` alone, and says
        each reason once."""
        self.write("main.c", "#include <stdio.h>\nint part(void);\nint main(void) { printf(\"%d\\n\", part()); }\n")
        self.write("part.c", "int part(void) { return 42; }\n")
        self.write("Makefile", f"""all: whole.o both.o main
%.o: %.c
\tgcc -c $<
whole.o both.o: part.o
\t$(LD) -r -o $@ part.o
main: main.o part.o
\tgcc -B {self.own} -static -o $@ main.o part.o
""")
        done = self.run_program("make", f"LD={LD_LDI}")
        self.assertEqual(done.returncode, 0, done.stderr)
        self.assertEqual(done.stderr.count("-r: relocatable output: linked by ld.bfd"), 1, done.stderr)
        self.assertEqual(self.must("./main"), "42\n")

    def test_with_a_server(self) -> None:
        """A link that goes to another linker in between: the image is that of the inputs at each call."""
        self.write("t.ld", PLAIN)
        for text in (START, START + '.section .more, "a"\n.long 4\n', START, START + '.data\n.quad 4\n'):
            self.compile("a.s", text)
            self.serves("-T", "t.ld", "a.o", "-o", "image")
            self.must("ld.bfd", "-T", "t.ld", "a.o", "-o", "gnu")
            self.assertEqual(read_image(self.read("image")).places(), read_image(self.read("gnu")).places())
        self.assertEqual(len(self.servers()), 1)

    def test_good_links_are_its_own(self) -> None:
        """What `ldi` links is linked by it, and nothing is said."""
        self.write("t.ld", PLAIN)
        self.write("only/ld.bfd", "#!/bin/sh\nexit 7\n").chmod(0o755)
        done = self.links("-T", "t.ld", "a.o", "-o", "out", env=self.path(self.folder / "only"))
        self.assertEqual(done.stderr, "")
        self.assertEqual(read_image(self.read("out")).entry, 0x400000)
