"""Maps in GNU ld's form and cross references, each beside GNU ld's text of the same words."""
from __future__ import annotations

import re

from tests.link_map import read_map
from tests.programs import OutsideTest, needs

A = """int g, h[10]; int common; extern int lib(int); static int st = 4; const char *name = "hello";
int a_very_long_function_name_here(int x) { return lib(x) + st; }
int main(void) { return a_very_long_function_name_here(3) + common; }
void _start(void) { main(); for (;;); }
"""
LIB = "int dep(int); int lib(int x) { return dep(x) + 1; }\n"
MORE = "int dep(int x) { return x; } int unused(void) { return 5; }\n"
SECOND = """extern int lib(int); const char *const names[] = {"two", "x", "three"};
__attribute__((section(".odd"))) int odd = 5; int second(int x) { return names[x][0] + lib(x); } const int ro = 5;
"""
SCRIPT = """ENTRY(_start)
MEMORY { rom (rx) : ORIGIN = 0x400000, LENGTH = 64K  ram (rwx!i) : ORIGIN = 0x500000, LENGTH = 128K }
base = 0x10 + 0x20;
SECTIONS {
  .text : { begin = .; *(.text._start) KEEP(*(SORT_BY_NAME(.text.*))) *(EXCLUDE_FILE(*m.o *x.o) .text .rodata)
            . = ALIGN(16); end = .; PROVIDE(etext = .); PROVIDE(name2 = . + 4); HIDDEN(hid = .); } > rom =0x90909090
  .rodata : { *(.rodata .rodata.*) BYTE(1) LONG(begin + 4) FILL(0xAB) . = . + 8; QUAD(0x5) } > rom
  .data : { *(SORT_BY_ALIGNMENT(.data.*) .data) } > ram AT> rom
  . = ALIGN(CONSTANT(MAXPAGESIZE));
  .bss (NOLOAD) : { *(.bss .bss.*) *(COMMON) } > ram
  .nothing : { *(.nothing) }
  ASSERT(SIZEOF(.text) < 0x1000, "too large")
  total = SIZEOF(.text) + ADDR(.data) * 2 - (MAX(3, g) ? 1 : -2);
  /DISCARD/ : { *(.note*) *(.eh_frame) }
}
after = total;
"""
FLAGS = ("-O1", "-ffunction-sections", "-fcommon")
NONE = {"LDI_FALLBACK": "none"}


@needs("ld.bfd")
class MapTest(OutsideTest):
    """Links with `-Map`."""

    def setUp(self) -> None:
        """A program with an archive."""
        super().setUp()
        self.write("t.ld", SCRIPT)
        for name, text in (("a", A), ("l", LIB), ("m", MORE), ("s", SECOND)):
            self.compile(f"{name}.c", text, *FLAGS)
        self.must("ar", "rcs", "libx.a", "l.o", "m.o")

    def lines(self, name: str) -> list[str]:
        """The lines of a map, without empty sections of dynamic relocations, which GNU ld makes in a static link
        too."""
        text = re.sub(r"\n \.rela\.[\w.]+\s+0x[0-9a-f]+\s+0x0 .*", "", self.read(name).decode())
        text = re.sub(r"\n\.rela\.[\w.]+\s*(0x[0-9a-f]+\s+0x0)?(?=\n)", "\n.rela", text)
        return text.splitlines()

    def same(self, *words: str) -> list[str]:
        """Both linkers write the same map; gives its lines."""
        done = self.links(*words, "-o", "image", "-Map=own", env=NONE)
        self.must("ld.bfd", *words, "-o", "image", "-Map=gnu")
        self.assertNotIn("the map is that of ldi", done.stderr)
        own, gnu = self.lines("own"), self.lines("gnu")
        self.maxDiff = None
        self.assertEqual(own, gnu, words)
        return own

    def test_script(self) -> None:
        """A script with regions, fills, data and assertions, the files before it, behind it and around it."""
        for words in (["-T", "t.ld", "a.o", "libx.a"], ["a.o", "libx.a", "-T", "t.ld"],
                      ["a.o", "-T", "t.ld", "-L.", "-lx"],
                      ["-T", "t.ld", "--start-group", "a.o", "libx.a", "--end-group", "s.o"]):
            self.assertIn("libx.a(l.o) (dep)", "\n".join(self.same(*words)))

    def test_options(self) -> None:
        """Sections that are left out, all members, names that are asked for, `--cref`, a build ID, `--no-demangle`."""
        for words in (["--gc-sections"], ["-u", "unused"], ["--cref"], ["-S"], ["--no-demangle"],
                      ["--cref", "--gc-sections"]):
            self.same(*words, "-T", "t.ld", "a.o", "s.o", "libx.a")
        self.same("-T", "t.ld", "a.o", "s.o", "--whole-archive", "libx.a")

    def test_debug(self) -> None:
        """Debug information and merged strings of what is not loaded."""
        self.compile("a.c", A, *FLAGS, "-g")
        self.compile("s.c", SECOND, *FLAGS, "-g")
        found = self.same("-T", "t.ld", "a.o", "s.o", "libx.a")
        self.assertIn("(size before relaxing)", "".join(found))

    @needs("g++")
    def test_groups(self) -> None:
        """Groups of which another object has the first are among the sections that are left out."""
        text = """template <class T> struct Box { T v; T get() const { return v; } };
            inline int shared(int x) { static int c; return x + ++c; }
            extern "C" int NAME(int x) { Box<int> b{x}; return b.get() + shared(x); }\n"""
        self.write("c.cc", text)
        for name in ("one", "other"):
            self.must("g++", "-O0", "-fno-pic", "-ffreestanding", "-fno-exceptions", "-fno-rtti", "-ffunction-sections",
                      "-fno-threadsafe-statics", "-fno-asynchronous-unwind-tables", f"-DNAME={name}", "-c", "c.cc",
                      "-o", f"{name}.o")
        found = self.same("--no-demangle", "-T", "t.ld", "a.o", "libx.a", "one.o", "other.o")
        self.assertIn(" .group         0x0000000000000000        0xc other.o", found)

    def test_default_script(self) -> None:
        """GNU ld's default script, but for what `.` is behind sections that are empty."""
        for words in (["a.o", "libx.a"], ["--start-group", "a.o", "s.o", "libx.a", "--end-group", "--build-id"]):
            self.links(*words, "-o", "image", "-Map=own", env=NONE)
            self.must("ld.bfd", *words, "-o", "image", "-Map=gnu")
            own, gnu = ([line for line in self.lines(name) if " . = " not in line] for name in ("own", "gnu"))
            self.assertEqual(own, gnu)

    def test_cross_references(self) -> None:
        """`--cref` without a map is printed; with `-M` it is behind the map."""
        words = ["-T", "t.ld", "a.o", "s.o", "libx.a", "-o", "image"]
        own, gnu = self.links("--cref", *words, env=NONE).stdout, self.must("ld.bfd", "--cref", *words)
        self.assertEqual(own, gnu)
        self.assertIn("lib                                               libx.a(l.o)\n", own)
        printed = self.links("--cref", "-M", *words, env=NONE).stdout
        self.assertTrue(printed.endswith(own))
        self.assertEqual(printed, self.links("--cref", "-Map=-", *words, env=NONE).stdout)

    def test_own_form(self) -> None:
        """`--Map-format=ldi` gives the map of `ldi`; other forms are refused."""
        words = ["-T", "t.ld", "a.o", "libx.a", "-o", "image", "-Map=own"]
        self.links("--Map-format=ldi", *words, env=NONE)
        self.assertIn(".text", [section.name.decode() for section in read_map(self.read("own")).sections])
        self.links("--Map-format=ldi", "--Map-format=gnu", *words, env=NONE)
        self.assertIn(b"Linker script and memory map", self.read("own"))
        self.assertEqual(self.ld("--Map-format=odd", *words, env=NONE).returncode, 2)

    def test_other_layout(self) -> None:
        """Where the image is laid out otherwise, as is said, the map is that of `ldi`, which is said too."""
        self.write("n.ld", "SECTIONS { . = 0x400000; .text : { *(.text .text.*) } .keep (NOLOAD) : { *(.data .odd) }\n"
                           " .rest : { *(.rodata* .bss COMMON) } /DISCARD/ : { *(.note*) } }")
        done = self.links("-e", "_start", "-T", "n.ld", "a.o", "libx.a", "-o", "image", "-Map=own", env=NONE)
        self.assertIn("changed: ", done.stderr)
        self.assertIn("the map is that of ldi", done.stderr)
        self.assertTrue(self.read("own").startswith(b"entry "))

    def test_later_calls(self) -> None:
        """A server's map after an edit is that of a link from scratch."""
        words = ["-T", "t.ld", "a.o", "s.o", "libx.a"]
        for text in (A, A.replace("+ st", "+ 2 * st * x"), A.replace("int h", "int more, h"), A):
            self.compile("a.c", text, *FLAGS)
            self.serves(*words, "-o", "image", "-Map=served", env=NONE)
            self.same(*words)
            self.assertEqual(self.read("served"), self.read("own"))
