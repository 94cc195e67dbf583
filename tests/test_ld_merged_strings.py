"""Strings and constants of sections with SHF_MERGE, which are merged; each link beside GNU ld's image of the same
words."""
from __future__ import annotations

import subprocess

from tests.images import read_image
from tests.programs import LDI_GDB, LDI_WATCH, needs
from tests.test_ld_objects import NONE, SCRIPT, ObjectTest, assembly

START = (".globl _start", "_start: nop")
FLAGS = ("-ffreestanding", "-fno-stack-protector", "-fcf-protection=none")
FIRST = """#include <stddef.h>
extern const char *second(int); extern double half(double);
const char *const names[] = {"hello world", "world", "alpha", "a longer text, which is aligned to eight",
                             "%d: failed\\n"};
const wchar_t *const wide = L"wide text";
double first(double x) { return half(x) * 3.5 + 2.25; }
int main(int n) { return names[n][0] + second(n)[1] + "o world"[n] + u"sixteen"[n] + U"thirty-two"[n]; }
void _start(void) { main(0); }
"""
SECOND = """#include <stddef.h>
static const char *const names[] = {"say hello world", "pha", "%s: %d: failed\\n", "d: failed\\n", "eight", ""};
const wchar_t *const wider = L"a wide text";
const char *second(int n) { return n == 7 ? "alpha" : names[n]; }
double half(double x) { return x * 0.5 + 3.5; }
typedef float four __attribute__((vector_size(16)));
four vector(four x) { return x * (four){1, 2, 3, 4} + (four){0.5, 0.25, 2, 1}; }
int other(int n) { return u"teen"[n] + U"two"[n] + "an even longer text, which is aligned to eight"[n]; }
"""


def section(name: str, entry: int = 1, flags: str = "aMS", align: int = 1) -> str:
    """The lines that begin a section whose entries are merged."""
    return f'.section {name},"{flags}",@progbits,{entry}\n.balign {align}'


class StringTest(ObjectTest):
    """Links by both linkers."""

    def assembled(self, *parts: tuple[str, ...], words: tuple[str, ...] = (), script: str = "t.ld") -> None:
        """Objects of these lines, of which the first has the start."""
        names = [self.compile(f"o{number}.s", assembly(*(START if number == 0 else ()), *lines))
                 for number, lines in enumerate(parts)]
        self.same(*words, *names, script=script)


@needs("ld.bfd")
class MergedTest(StringTest):
    """What is merged, and where references lead."""

    def test_programs(self) -> None:
        """Strings, wide ones, and constants of 4, 8 and 16 bytes, as gcc gives them."""
        for level in ("-O0", "-O1", "-O2", "-Os"):
            for code in ("-fno-pic", "-fPIC"):
                with self.subTest(level=level, code=code):
                    flags = (*FLAGS, level, code, "-fno-asynchronous-unwind-tables")
                    one, two = self.compile("a.c", FIRST, *flags), self.compile("b.c", SECOND, *flags)
                    own, _ = self.same(one, two)
                    if level != "-O0":  # gcc gives strings to be merged from -O1 on
                        self.assertEqual(own.section(".rodata").data.count(b"alpha\0"), 1)
                    self.same(two, one)

    def test_levels(self) -> None:
        """GNU ld merges with any -O."""
        one = self.compile("a.s", assembly(*START, section(".rodata.str"), '.string "abc"'))
        two = self.compile("b.s", assembly(section(".rodata.str"), '.string "abc"', ".data", ".quad .rodata.str"))
        for level in ("-O0", "-O1", "-O2"):
            own, _ = self.same(level, one, two)
            self.assertEqual(own.section(".rodata").data, b"abc\0")

    def test_ends(self) -> None:
        """A string that another one ends with, in this object, an earlier or a later one."""
        lines = (section(".rodata.str"), 'x: .string "{0}"', '.string "more {0}"', ".data", ".quad x, x + 1, x + 3")
        texts = ("world", "hello world", "o world", "world")
        self.assembled(*(tuple(line.replace("{0}", text) for line in lines) for text in texts))

    def test_alignments(self) -> None:
        """A string that is aligned more in a later object; ends that are not aligned; zeros between strings."""
        texts = (("one", "two"), ("two", "one"), ("one", "xxxxone", "none", "two"))
        for align in (2, 8, 32):
            parts = []
            for own in texts:
                lines = [section(".rodata.str", align=align)]
                for number, text in enumerate(own):
                    lines += [f".balign {align if number % 2 else 2}", f"t{number}: .string \"{text}\""]
                parts.append((*lines, ".zero 3", ".data", *(f".quad t{number}" for number in range(len(own)))))
            with self.subTest(align=align):
                self.assembled(*parts)

    def test_places(self) -> None:
        """References into the middle, to a string's end, between strings, and past the last one."""
        for align in (1, 8):
            head = (section(".rodata.str", align=align), 'x: .string "first"', f".balign {align}",
                    'y: .string "second"', ".zero 5", 'z: .string "irst"', ".data")
            for filled in ((), (section(".rodata.str", align=align), '.string ""', ".data")):
                references = [f".quad .rodata.str + {offset}, x + {offset}, z + {offset}" for offset in range(8)]
                references += [f".long y + {offset} - ." for offset in (0, 3, 6)]
                references += ["leaq x(%rip), %rax", "leaq .rodata.str + 2(%rip), %rax"]
                with self.subTest(align=align, filled=bool(filled)):
                    self.assembled((*head, *references), (*filled, *head, *references))

    def test_past_the_end(self) -> None:
        """GNU ld says that an access is beyond the end, and takes the end."""
        lines = (section(".rodata.str"), 'x: .string "text"', ".data", ".quad .rodata.str + 9, .rodata.str - 1, x - 1")
        self.assembled(lines, lines)

    def test_names(self) -> None:
        """Names of strings, global, weak and local: of those that stay and of those that are in other objects."""
        lines = (section(".rodata.str"), ".globl g{0}", ".weak w", "g{0}: .string \"some {0}\"", "w: .string \"text\"",
                 ".globl own{0}", "own{0}: .string \"own\"", "local: .string \"text\"", ".data",
                 ".quad g{0}, w, own{0}, own{0} + 1, local, own0")
        self.assembled(*(tuple(line.replace("{0}", str(number)) for line in lines) for number in range(3)))

    def test_name_that_is_aligned_more(self) -> None:
        """A weak name whose string is in a later object, after another definition of the name."""
        first = (section(".rodata.str", align=8), '.string "1234567"', ".weak w", 'w: .string "abc"', '.string "x"',
                 '.string "abc"', ".data", ".quad w")
        second = (".section .rodata,\"a\"", ".weak w", "w: .quad 1", ".data", ".quad w")
        third = (section(".rodata.str", align=8), '.string "another"', ".balign 8", '.string "abc"', ".data", ".quad w")
        self.assembled(first, second, third)

    def test_constants(self) -> None:
        """Constants; where they are as long as aligned, longer, or shorter, and where sizes are odd."""
        for entry, align in ((4, 4), (8, 8), (16, 16), (16, 4), (12, 4), (4, 8), (8, 3), (1, 1)):
            number = f".zero {entry - 1}" if entry > 1 else ""
            lines = (section(".rodata.cst", entry, "aM", 1 << align.bit_length() - 1), ".byte {0}", number,
                     ".byte 7", number, "k: .byte {1}", number, ".data", ".quad k, .rodata.cst, .rodata.cst + 1")
            with self.subTest(entry=entry, align=align):
                self.assembled(*(tuple(line.replace("{0}", str(one)).replace("{1}", str(one + 1)) for line in lines)
                                 for one in (1, 2, 1)))

    def test_what_is_left(self) -> None:
        """Sections with relocations, of odd sizes, with a last string that has no end, and empty ones."""
        text = ('.string "abc"', '.string "bc"')
        for lines in ((section(".rodata.a", 3), *text), (section(".rodata.a", 2), '.ascii "abc"', *text),
                      (section(".rodata.a"), *text, '.ascii "ab"'), (section(".rodata.a"), *text, ".quad _start"),
                      (section(".rodata.a", 8, "aM", 8), ".quad _start, _start"), (section(".rodata.a"),),
                      (section(".rodata.a", 1, "aMS", 64), *text),
                      (section(".rodata.a", 8, "aMS", 1), ".quad 1, 0, 1, 0")):
            with self.subTest(lines=lines):
                self.assembled((*lines, ".data", ".quad .rodata.a + 1"), (*lines, ".data", ".quad .rodata.a"))

    def test_table(self) -> None:
        """A string by a global offset table."""
        lines = (section(".rodata.str"), 'x: .string "text"', ".text", "pushq x@GOTPCREL(%rip)",
                 "movq x@GOTPCREL(%rip), %rax")
        self.assembled(lines, lines)


@needs("ld.bfd")
class PlacedTest(StringTest):
    """Which sections are merged with each other."""

    LINES = (section(".rodata.str1.1"), 'x: .string "text"', section(".rodata.str1.8", align=8), 'y: .string "text"',
             section(".data.str1.1", flags="aMSw"), 'z: .string "text"', section(".text.str1.1", flags="aMSx"),
             'v: .string "text"', section(".rodata.cst1", flags="aM"), '.string "text"', ".data", ".quad x, y, z, v")

    def test_output_sections(self) -> None:
        """Those of one output section, one alignment and one kind, whatever their names and other flags are."""
        for body in ("*(.rodata*)", "*(.rodata*) *(.data.str*) *(.text.str*)", "*(SORT_BY_ALIGNMENT(.rodata*))",
                     "*(SORT(.rodata*)) o2.o(.data.str*)", "o2.o(.rodata*) *(.rodata*)",
                     "*(EXCLUDE_FILE(*o1.o) .rodata*) } .second : { *(.rodata*)",
                     "KEEP(*(.rodata.str1.8)) *(.rodata*)"):
            with self.subTest(body=body):
                self.write("s.ld", SCRIPT.replace(".text : { *(.text .text.*) } =0x90909090 .rodata : { *(.rodata*) }",
                                                  f".text : {{ *(.text) }} .rodata : {{ {body} }} =0 "
                                                  ".more : { *(.text.*) } =0"))
                self.assembled(self.LINES, self.LINES, self.LINES, script="s.ld")

    def test_discarded(self) -> None:
        """What is discarded, or that of one object is."""
        for body in ("*(.data.str*)", "o0.o(.rodata.cst1) o2.o(.rodata.cst1)", "*o1.o(.rodata.cst1)"):
            with self.subTest(body=body):
                self.write("s.ld", SCRIPT.replace("{ *(.comment)", f"{{ {body} *(.comment)")
                           .replace("SECTIONS {", "SECTIONS { /DISCARD/ : { *(.empty) " + body + " }"))
                lines = tuple(line.replace(", z", "") for line in self.LINES)
                self.assembled(lines, lines, lines, script="s.ld")

    def test_collected(self) -> None:
        """With --gc-sections only what is kept is merged; a section stays where all references to it lead elsewhere."""
        first = (section(".rodata.one"), '.string "left"', '.section .text.gone,"ax"', "movl $.rodata.one, %eax")
        second = (section(".rodata.two"), 'a: .string "text"', 'b: .string "unused"', '.section .text.used,"ax"',
                  ".globl used", "used: movl $a, %eax", '.section .text.other,"ax"', "movl $b, %eax")
        third = (section(".rodata.three"), 'c: .string "some text"', 'd: .string "left"', '.section .text.too,"ax"',
                 ".globl too", "too: movl $c, %eax")
        fourth = (section(".rodata.four"), 'e: .string "some text"', 'f: .string "nobody wants it"',
                  '.section .text.last,"ax"', ".globl last", "last: movl $e, %eax")
        for wanted in ("used", "used too", "too last", "last used", "last"):
            words = [word for name in wanted.split() for word in ("-u", name)]
            with self.subTest(wanted=wanted):
                self.assembled(first, second, third, fourth, words=("--gc-sections", *words))
        done = self.ld("-T", "t.ld", "--gc-sections", "--print-gc-sections", "-u", "too", "-u", "last", "o0.o", "o1.o",
                       "o2.o", "o3.o", "-o", "own", env=NONE)
        self.assertNotIn(".rodata.four", done.stdout + done.stderr)
        self.assertIn(".rodata.one", done.stdout + done.stderr)

    def test_archive(self) -> None:
        """Members of an archive."""
        for number, name in enumerate(("one", "two", "three")):
            self.compile(f"{name}.s",
                         assembly(f".globl {name}", f"{name}: call next_{number}" if number else f"{name}: nop",
                                               ".weak next_1, next_2", section(".rodata.str"), f'.string "of {name}"',
                                               '.string "shared"', ".data", ".quad .rodata.str + 4"))
        self.must("ar", "rc", "lib.a", "one.o", "two.o", "three.o")
        start = self.compile("start.s", assembly(*START, "call two", "call one", section(".rodata.str"),
                                                 '.string "red"'))
        self.same(start, "lib.a")

    def test_default_script(self) -> None:
        """Without a script of one's own."""
        flags = (*FLAGS, "-O2", "-fno-asynchronous-unwind-tables")
        words = (self.compile("a.c", FIRST, *flags), self.compile("b.c", SECOND, *flags))
        self.links(*words, "-o", "own", env=NONE)
        self.must("ld.bfd", "-static", *words, "-o", "gnu")
        own, gnu = (read_image(self.read(name)).places() for name in ("own", "gnu"))
        self.assertEqual(own[1:], gnu[1:])  # the first is code, with gaps


@needs("ld.bfd")
class GdbTest(StringTest):
    """A map of an image with merged strings."""

    def test_script(self) -> None:
        """A section of which something is elsewhere is put nowhere: what is in it is not what the object says."""
        lines = (section(".rodata.str"), '.string "text"', ".globl {0}", ".text", "{0}: nop")
        for name, more in (("_start", ""), ("b", '.string "more"')):
            self.compile(f"{name}.s", assembly(*lines, section(".rodata.str"), more).replace("{0}", name))
        self.links("-T", "t.ld", "_start.o", "b.o", "-o", "own", "-Map", "map", "--Map-format=ldi", env=NONE)
        loads = [line for line in self.must(LDI_GDB, "map").splitlines() if line.startswith("add-symbol-file")]
        places = [line.split(" -s .rodata.str ")[1:] for line in loads]
        self.assertEqual([len(one) for one in places], [1, 1], loads)
        self.assertTrue(places[1][0].startswith("0x8000000000000000"), loads)
        self.assertFalse(places[0][0].startswith("0x8000000000000000"), loads)


EDITS = (("b.s", ('.string "text"', '.string "more"'), 1), ("b.s", ('.string "text"', '.string "more"'), 2),
         ("b.s", ('.string "text"', '.string "another"'), 2), ("a.s", ('.string "longer text"', '.string "x"'), 1),
         ("b.s", ('.string "even longer text"', '.string "x"'), 1), ("b.s", (), 3), ("a.s", (), 3),
         ("a.s", ('.string "text"',), 3), ("b.s", ('.string "text"', '.string "text"', ".zero 3"), 3),
         ("c.s", ('.string "a text"',), 9), ("c.s", ('.string "a text"',), 8), ("a.s", ('.string "text"',), 4))
"""Files that change, their strings, and how long their code is."""


@needs("ld.bfd")
class EditTest(StringTest):
    """Edits under a server and under `ldi-watch`."""

    WORDS = ("-T", "t.ld", "a.o", "b.o", "c.o", "-e", "sa")

    def source(self, name: str, texts: tuple[str, ...], count: int) -> None:
        """Compiles a source with some strings and as many bytes of code."""
        letter = name[0]
        self.compile(name,
                     assembly(f".globl s{letter}", f"s{letter}: .fill {count}, 1, 0x90", section(".rodata.str1.1"),
                                    *texts, ".data", *([".quad .rodata.str1.1 + 2"] if texts else [])))

    def begin(self) -> None:
        """The files before the first edit."""
        self.source("a.s", ('.string "text"', '.string "more"'), 1)
        self.source("b.s", ('.string "text"', '.string "more"'), 1)
        self.source("c.s", ('.string "some more"',), 1)

    def test_with_a_server(self) -> None:
        """Each later call makes what a call from scratch and GNU ld make."""
        for more in ((), ("--gc-sections", "-u", "sb", "-u", "sc")):
            self.begin()
            self.serves(*self.WORDS, *more, "-o", "own", env=NONE)
            for name, texts, count in EDITS:
                with self.subTest(name=name, texts=texts, more=more):
                    self.source(name, texts, count)
                    self.serves(*self.WORDS, *more, "-o", "own", env=NONE)
                    self.must("ld.bfd", *self.WORDS, *more, "-o", "gnu")
                    self.alike()
                    self.links(*self.WORDS, *more, "-o", "anew", env=NONE)
                    self.assertEqual(self.read("anew"), self.read("own"))

    def test_under_watch(self) -> None:
        """`ldi-watch` makes the same image after each edit, where the script is GNU ld's."""
        self.write("t.ld", 'OUTPUT_FORMAT("elf64-x86-64")\n' + SCRIPT)
        self.begin()
        words = (LDI_WATCH, *self.WORDS, "-o", "watched")
        with subprocess.Popen(words, cwd=self.folder, stdout=subprocess.DEVNULL, stderr=subprocess.DEVNULL) as watching:
            self.addCleanup(watching.kill)
            for name, texts, count in (("a.s", ('.string "text"', '.string "more"'), 1), *EDITS):
                with self.subTest(name=name, texts=texts):
                    self.source(name, texts, count)
                    self.must("ld.bfd", *self.WORDS, "-o", "gnu")
                    wanted = read_image(self.read("gnu")).places()
                    self.wait(lambda wanted=wanted: self.watched() == wanted,
                              "the image is another")  # type: ignore[misc]
            watching.terminate()

    def watched(self) -> object:
        """The sections of the image that is there; none where there is none."""
        return read_image(self.read("watched")).places() if (self.folder / "watched").exists() else []
