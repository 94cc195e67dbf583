"""`a = b;` in a script, for a symbol b of an object: a is a symbol of that object."""
from __future__ import annotations

from tests.images import Image, read_image
from tests.programs import LDI, Done, OutsideTest, needs

SCRIPT = """ENTRY(_start)
{front}
SECTIONS {{ . = 0x400000; .text : {{ *(.text .text.*) }} .data : {{ {inside} *(.data .data.*) }}
           .bss : {{ *(.bss .bss.*) }} /DISCARD/ : {{ *(.comment) *(.note*) *(.eh_frame) }} }}
{back}
"""
USES = """extern int one, two, three; extern void again(void);
void _start(void) { again(); one = two + three; }
"""
HAS = """int first = 1; __attribute__((aligned(32))) int second = 2; int zero[4]; void function(void) { }
__attribute__((weak)) int weak = 3; int refers(void) { extern int one; return one; }
"""
LOG = """#!/usr/bin/python3
import os, subprocess, sys
if sys.argv[1:2] != ["session"]:
    os.execv("{ldi}", ["{ldi}", *sys.argv[1:]])
session = subprocess.Popen(["{ldi}", *sys.argv[1:]], stdin=subprocess.PIPE)
source = open(0, "rb")
while line := source.readline():
    with open("{log}", "ab") as log:
        log.write(line)
    session.stdin.write(line)
    words = line.split()
    if words and words[0] in (b"add", b"replace", b"script"):
        left = int(words[-1])
        while left and (part := source.read(min(left, 1 << 20))):
            session.stdin.write(part)
            left -= len(part)
    session.stdin.flush()
session.stdin.close()
sys.exit(session.wait())
"""
"""A session whose commands are written down."""


@needs("ld.bfd")
class AliasesTest(OutsideTest):
    """Links of a script with such assignments."""

    def setUp(self) -> None:
        """Two objects."""
        super().setUp()
        self.compile("uses.c", USES, "-fno-pie", "-ffunction-sections")
        self.compile("has.c", HAS, "-fno-pie", "-fno-common")

    def script(self, front: str = "", inside: str = "", back: str = "") -> None:
        """Writes the script."""
        self.write("t.ld", SCRIPT.format(front=front, inside=inside, back=back))

    def image(self, name: str) -> Image:
        """An image in the folder."""
        return read_image(self.read(name))

    def same(self, words: tuple[str, ...], name: str) -> None:
        """An image has the sections and symbols of GNU ld's."""
        self.must("ld.bfd", "-T", "t.ld", *words, "-o", "gnu")
        gnu, own = self.image("gnu"), self.image(name)
        self.assertEqual(sorted(own.places()), sorted(gnu.places()))
        self.assertEqual({name: own.symbols.get(name) for name in gnu.symbols}, gnu.symbols)

    def both(self, *words: str) -> Done:
        """Links by both; gives what `ld.ldi` said."""
        done = self.links("-T", "t.ld", *words, "-o", "own", "--verbose", env={"LDI_FALLBACK": "none"})
        self.same(words, "own")
        return done

    def test_places(self) -> None:
        """Before SECTIONS, in a section and after them; by PROVIDE; of code, data, what is zero, and a weak name."""
        for again in ("again = function;", "PROVIDE(again = function);", "PROVIDE_HIDDEN(again = function);"):
            for one in ("first", "weak", "zero"):
                with self.subTest(again=again, one=one):
                    self.script(again, f"one = {one};", "two = second; three = second; unused = (first);")
                    said = self.both("uses.o", "has.o").stderr
                    self.assertIn(f"one is a symbol of the object that has {one}", said)
                    self.assertEqual(said.count("is a symbol of the object"), 5, said)

    def test_others(self) -> None:
        """What is none: numbers, expressions, names that are assigned twice, of common blocks, or that an object
        has."""
        self.compile("more.c", "int block[3]; __attribute__((weak)) int three = 5; __asm__(\".globl n\\n n = 77\");",
                     "-fcommon")
        self.script("one = n; two = first + 4; again = function;", back="one = second; two = first;")
        self.write("t.ld", self.read("t.ld").decode().replace("*(.bss .bss.*)", "*(.bss .bss.*) *(COMMON)"))
        said = self.both("uses.o", "has.o", "more.o").stderr
        self.assertEqual(said.count("is a symbol of the object"), 1, said)
        self.script("one = block; three = first; two = n; again = function;")
        self.write("t.ld", self.read("t.ld").decode().replace("*(.bss .bss.*)", "*(.bss .bss.*) *(COMMON)"))
        said = self.both("uses.o", "has.o", "more.o").stderr
        self.assertEqual(said.count("is a symbol of the object"), 1, said)
        self.script("one = first; two = one; three = two + 1; again = function;")
        self.both("uses.o", "has.o")

    def test_collected(self) -> None:
        """With --gc-sections the section of what stands behind a name that is used stays."""
        self.compile("parts.c", HAS, "-fno-pie", "-fno-common", "-fdata-sections", "-ffunction-sections")
        self.script("again = function; one = first; two = second; three = zero; unused = weak;")
        self.write("t.ld", self.read("t.ld").decode().replace("*(.text .text.*)", "*(.text.*)"))
        self.links("--gc-sections", "-T", "t.ld", "uses.o", "parts.o", "-o", "own", "-u", "weak")
        self.same(("--gc-sections", "uses.o", "parts.o", "-u", "weak"), "own")

    def test_with_a_server(self) -> None:
        """Edits by which the place moves: the script is sent once; and by which the name comes to be elsewhere."""
        program = self.write("ldi", LOG.format(ldi=LDI, log=self.folder / "log"))
        program.chmod(0o755)
        self.script("again = function; one = first; two = second; three = second;")
        words = ("uses.o", "has.o")
        more = {"LDI": str(program), "LDI_FALLBACK": "none"}
        scripts: list[int] = []
        for text in (HAS, "int before[7] = {5};\n" + HAS, HAS + "int after = 4;\n", "int more = 9;" + HAS):
            self.compile("has.c", text, "-fno-pie", "-fno-common")
            self.serves("-T", "t.ld", *words, "-o", "served", env=more)
            self.same(words, "served")
            sent = self.read("log").splitlines()
            scripts.append(sum(line.startswith(b"script ") for line in sent))
        self.assertEqual(len(set(scripts)), 1, scripts)
        self.compile("has.c", HAS.replace("int first = 1;", ""), "-fno-pie", "-fno-common")
        self.compile("uses.c", USES + "int first = 8;", "-fno-pie")
        self.serves("-T", "t.ld", *words, "-o", "served", env=more)
        self.same(words, "served")
