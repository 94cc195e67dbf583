"""`ld.ldi`'s server: what it links is what a call without a server links, whatever changed."""
from __future__ import annotations

import os
import random

from tests.serving import SCRIPT, SOURCES, WORDS, ServerTest

VALUED = """copy = jiffies_64; half = end / 2;
ENTRY(_start)
SECTIONS {
  . = 0x401000;
  .text : { *(.text .text.*) }
  .data : { *(.data .data.*) }
  .bss : { *(.bss .bss.*) *(COMMON) . = ALIGN(0x1000); end = .; }
  /DISCARD/ : { *(*) }
}
"""


NAMING = """copy = jiffies_64 + 8; half = end / 2;
ENTRY(_start)
SECTIONS {
  . = 0x401000;
  .text : { *(.text .text.*) }
  .rodata : { *(.rodata .rodata.*) *(SORT(table+*)) }
  .data : { PROVIDE(wanted = .); is_there = DEFINED(optional) ? 1 : 2; *(.data .data.*) }
  notes : { *(notes) }
  .bss : { *(.bss .bss.*) *(COMMON) . = ALIGN(0x1000); end = .; }
  /DISCARD/ : { *(.eh_frame .note.* .comment) }
}
ASSERT(end > _start, "order")
"""
"""A script that names symbols of objects, asks whether they are there, and provides some."""

JIFFIES = """int before[4] = {1}; unsigned long jiffies_64 = 7;
__attribute__((section("notes"))) int kept = 1;"""

CHANGES = (
    "int other = 5; int b(int x) { return x + 2; }",
    "int other = 5; int b(int x) { return x * x * x + other; }",
    "int other = 5; int b(int x) { return x; } int longer(int x) { return x * x * x * x * other; }",
    "int other = 5; int optional; int b(int x) { return x; }",
    "extern int wanted; int other = 5; int b(int x) { return wanted + x; }",
    "int wanted = 9; int other = 5; int b(int x) { return wanted + x; }",
    "extern int __start_notes[]; int other = 5; int b(int x) { return __start_notes[x]; }",
    "__attribute__((section(\"notes\"))) int note = 3; int other = 5; int b(int x) { return x; }",
    "__attribute__((section(\"table+b\"))) const int row = 3; int other = 5; int b(int x) { return x; }",
    "int block[100] __attribute__((common)); int other = 5; int b(int x) { return block[x]; }",
    "int block[50] __attribute__((common)); int other = 5; int b(int x) { return block[x]; }",
    "__attribute__((weak)) int jiffies_64 = 4; int other = 5; int b(int x) { return x; }",
    "int other __attribute__((aligned(256))) = 5; int b(int x) { return x; }",
    "const int table[2000] = {1}; int other = 5; int b(int x) { return table[x]; }",
    "int other = 5; int b(int x) { return x + 1; }",
)
"""An object in which there is more or less of what a script, a layout and a check go by."""

DEBUGGED = """enum { value = %d };
int other = value;
#line %d
int b(int x) { enum { more = %d } own = more; return x + value + own; }
"""
"""An object whose code, data and debug information have other bytes at the same places for other numbers."""


class EditTest(ServerTest):
    """One change after the other."""

    def test_weak_names_for_others(self) -> None:
        """The image of one weak name that nobody defines has the names that the image of another one has."""
        self.compile("b.c", "".join(f"int name_{number} = {number}; " for number in range(40)) + CHANGES[-1])
        self.compile("j.c", "int c;")
        words = (*WORDS, "j.o")
        self.start(*words)
        for name in ("zz", "q", "another", "hello", "w123"):
            with self.subTest(name=name):
                self.compile("j.c", f"extern int {name} __attribute__((weak)); int *c = &{name};")
                self.assert_same(*words)

    def test_script_that_names(self) -> None:
        """All that a script asks of objects comes and goes: the image is that of a call without a server each time."""
        self.compile("j.c", JIFFIES)
        self.write("t.ld", NAMING)
        words = (*WORDS, "j.o")
        for more in ((), ("--gc-sections", "-u", "jiffies_64")):
            self.start(*more, *words)
            for text in CHANGES:
                with self.subTest(text=text, more=more):
                    self.compile("b.c", text)
                    self.assert_same(*more, *words)

    def test_random_edits(self) -> None:
        """Random changes of two objects at once, after which nothing is taken over that is another."""
        chance = random.Random(8)
        self.compile("j.c", JIFFIES)
        self.write("t.ld", NAMING)
        words = (*WORDS, "j.o")
        self.start(*words)
        for _ in range(15):
            self.compile("b.c", chance.choice(CHANGES))
            self.compile("c.c", f"int more_{chance.randrange(3)}[{chance.choice((1, 9, 900))}] = {{1}};")
            self.assert_same(*words)

    def test_objects(self) -> None:
        """Nothing, the same sizes, longer, more names, fewer; each image is that of a call without a server."""
        self.start()
        texts = ("int other = 5; int b(int x) { return x + 1; }", "int other = 5; int b(int x) { return x + 2; }",
                 "int other = 5; int b(int x) { return x * x * x + other; }",
                 "int other = 5, more; int b(int x) { more = x; return x; } int third(void) { return 3; }",
                 "int other; int b(int x) { return x; }")
        for text in texts:
            self.compile("b.c", text)
            self.served()
            self.assertEqual(self.image(), self.expected(), text)

    def test_all_of_a_file(self) -> None:
        """Debug information, relocations, a build ID and a map, after edits of bytes alone and after others."""
        words = ("-q", "--build-id", "-Map=image.map", "--cref", *WORDS)
        self.write("t.ld", SCRIPT.replace("  .data :", "  .notes : { *(.note.gnu.build-id) }\n  .data :"))
        for name, text in SOURCES.items():
            self.compile(name, text, "-g")
        self.start(*words)
        same = [DEBUGGED % (1000 + number, 100 + number, 2000 + number) for number in range(4)]
        longer = "int more; " + SOURCES["b.c"]
        for texts in ((same[0], same[1], same[2]), (longer, same[0], same[3], same[1]), (SOURCES["b.c"],)):
            for text in texts:
                with self.subTest(text=text):
                    self.compile("b.c", text, "-g")
                    self.assert_same(*words)
        for number, text in enumerate(same):
            with self.subTest(both=number):
                self.compile("b.c", text, "-g")
                self.compile("c.c", f"int unused = {number + 1}; const char text[] = \"{number}ome text\";", "-g")
                self.assert_same(*words)
                self.assert_same(*words)

    def test_words(self) -> None:
        """The order of objects, some that come and go, --defsym, --gc-sections, other scripts, texts and INCLUDEs."""
        self.start()
        self.write("other.ld", SCRIPT.replace("0x401000", "0x500000"))
        for words in (WORDS[:4] + ("c.o", "b.o", "a.o"), WORDS[:-1], WORDS, ("--defsym=one_more=0x1234", *WORDS),
                      ("--defsym=one_more=0x4321", *WORDS), ("--gc-sections", *WORDS), WORDS, ("-e", "b", *WORDS),
                      ("-T", "other.ld", *WORDS[2:]), ("-z", "max-page-size=0x10000", *WORDS), WORDS):
            self.assert_same(*words)
        self.write("t.ld", SCRIPT.replace("0x401000", "0x600000"))
        self.assert_same(*WORDS)
        self.write("t.ld", "INCLUDE inner.ld")
        for text in (SCRIPT, SCRIPT.replace("0x401000", "0x700000")):
            self.write("inner.ld", text)
            self.assert_same(*WORDS)

    def test_file_that_comes(self) -> None:
        """A file that is found before another one: in a folder of -L, and a script in the folder of the call."""
        for name in ("first", "second"):
            (self.folder / name).mkdir()
        self.run_tool("ar", "rcs", "second/libb.a", "b.o")
        (self.folder / "t.ld").rename(self.folder / "second" / "t.ld")
        words = ("-Lfirst", "-Lsecond", "-T", "t.ld", "-o", "image", "a.o", "-lb")
        self.start(*words)
        self.assert_same(*words)
        self.compile("b.c", "int other = 6; int b(int x) { return x * 9; }")
        self.run_tool("ar", "rcs", "first/libb.a", "b.o")
        self.assert_same(*words)
        self.write("t.ld", SCRIPT.replace("0x401000", "0x800000"))
        self.assert_same(*words)

    def test_archives(self) -> None:
        """A member that changed, one that comes to be needed, a member that goes; plain and thin archives."""
        for letters in ("rcs", "rcsT"):
            for name, text in SOURCES.items():
                self.compile(name, text)
            self.compile("d.c", "int fourth(void) { return 4; }")
            (self.folder / "lib.a").unlink(missing_ok=True)
            self.run_tool("ar", letters, "lib.a", "b.o", "c.o", "d.o")
            words = ("-T", "t.ld", "-o", f"image.{letters}", "-Map=map", "a.o", "lib.a")
            self.assertEqual(self.call(*words).returncode, 0)
            for text in ("int other = 5; int b(int x) { return x + 2; }",
                         "int other = 5; int b(int x) { return x * x * x + 22; }",
                         "extern int fourth(void); int other = 5; int b(int x) { return fourth() + x; }"):
                self.compile("b.c", text)
                self.run_tool("ar", letters, "lib.a", "b.o")
                self.assert_same(*words)
            self.run_tool("ar", "d", "lib.a", "d.o")
            done = self.call(*words)
            self.assertEqual(done.returncode, 1, done.stderr)
            self.assertIn("fourth", done.stderr)

    def test_symbols_in_the_script(self) -> None:
        """Values of objects' symbols follow the objects."""
        self.write("t.ld", VALUED)
        self.compile("c.c", "long first[3] = {1}, jiffies_64 = 7;")
        self.start()
        for number in (3, 3, 4, 90, 9):
            text = f"int other = 5, table[{number}] = {{1}}; int b(int x) {{ return table[x] + {number}; }}"
            self.compile("b.c", text)
            self.assert_same(*WORDS)

    def test_flat_image_and_header_types(self) -> None:
        """--oformat=binary, PHDRS and larger pages."""
        self.start()
        self.assert_same(*WORDS, "--oformat=binary")
        self.write("t.ld", SCRIPT.replace("SECTIONS", "PHDRS { all PT_LOAD FLAGS(7); } SECTIONS").replace(
            ".text : { *(.text .text.*) }", ".text : { *(.text .text.*) } :all"))
        self.assert_same(*WORDS)
        self.assert_same(*WORDS, "-z", "max-page-size=0x200000")
        self.compile("b.c", "int other = 5; int b(int x) { return x + 77; }")
        self.assert_same(*WORDS, "-z", "max-page-size=0x200000")


class SaysTest(ServerTest):
    """What is printed, and what is written beside the image."""

    def test_outputs(self) -> None:
        """The map, the dependency file, tables on standard output, the trace: as without a server, on each stream."""
        self.start()
        for more in (("-Map=map",), ("-Map=-",), ("-M",), ("--dependency-file=deps",), ("--print-memory-usage",),
                     ("--gc-sections", "--print-gc-sections"), ("-t",), ("-s", "--cref"), ("--verbose",)):
            with self.subTest(more=more):
                self.assert_same(*WORDS, *more)
                self.assert_same(*WORDS, *more)

    def test_faults(self) -> None:
        """Faults are said as without a server, the old image stays, and the next good link replaces it."""
        self.start()
        before = self.image()
        self.compile("b.c", "extern int nothing; int other; int b(int x) { return nothing; }")
        for _ in range(2):
            done = self.assert_same(*WORDS, status=1)
            self.assertIn("undefined reference to `nothing'", done.stderr)
            self.assertEqual(self.image(), before)
        self.compile("b.c", SOURCES["b.c"])
        self.assert_same(*WORDS)
        self.assertEqual(self.image(), before)

    def test_refusals(self) -> None:
        """What the server refuses is said by the call itself, and the server goes on."""
        pid = self.start()
        good = (self.folder / "b.o").read_bytes()
        for data, words in ((good[:100], WORDS), (b"", WORDS), (None, WORDS), (good, (*WORDS, "none.o")),
                            (good, (*WORDS, "-r")), (good, ("-T", "none.ld", *WORDS[2:])), (good, WORDS + ("a.o",))):
            if data is None:
                (self.folder / "b.o").unlink()
            else:
                self.write("b.o", data)
            done, alone = self.call(*words), self.ld(*words)
            self.assertEqual((done.returncode, done.stdout, done.stderr),
                             (alone.returncode, alone.stdout, alone.stderr))
            self.assertNotEqual(done.returncode, 0)
        self.assertEqual(self.server(), pid)
        self.assert_same(*WORDS)

    def test_mode_and_links(self) -> None:
        """The mode follows the umask of the call; the file that a symbolic link names is replaced."""
        self.start()
        for mask in (0o022, 0o077, 0o027, 0o002):
            done = self.run_program("sh", "-c", f"umask {mask:o}; exec '{self.program()}' {' '.join(WORDS)}",
                                    env=self.env())
            self.assertEqual(done.returncode, 0, done.stderr)
            self.assertEqual((self.folder / "image").stat().st_mode & 0o777, 0o755 & ~mask)
        (self.folder / "image").rename(self.folder / "real")
        os.symlink("real", self.folder / "image")
        self.compile("b.c", "int other = 5; int b(int x) { return x + 3; }")
        self.call()
        self.assertTrue((self.folder / "image").is_symlink())
        self.assertEqual(self.image("real"), self.expected())

    @staticmethod
    def program() -> str:
        """The path of `ld.ldi`."""
        from tests.programs import LD_LDI

        return str(LD_LDI)

    def test_image_that_is_gone(self) -> None:
        """The image is written again where it is not there, and has a new time where nothing changed."""
        self.start()
        (self.folder / "image").unlink()
        self.served()
        before = (self.folder / "image").stat().st_mtime_ns
        self.served()
        self.assertGreater((self.folder / "image").stat().st_mtime_ns, before)
        self.assertEqual(self.image(), self.expected())
        self.wait(lambda: not self.beside(), "something is left beside the image")

    def test_program_that_runs(self) -> None:
        """An image that is being run is replaced, and can be started at once."""
        end = '__asm__ volatile("syscall" :: "a"(60), "D"(b(3)));'
        self.compile("a.c", f"extern int b(int); void _start(void) {{ {end} }}")
        self.start()
        for number in range(10):
            self.compile("b.c", f"int other; int b(int x) {{ return x + {number}; }}")
            self.served()
            self.assertEqual(self.run_program("./image").returncode, 3 + number)
