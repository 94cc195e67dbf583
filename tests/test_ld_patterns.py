"""Names and patterns: in which a comment seems to begin, of many signs, long ones; beside GNU ld."""
from __future__ import annotations

from tests.linking import BesideGnu, LinkTest, needs
from tests.test_ld_link import PLAIN

SOURCE = ('.globl {0}\n.section .text,"ax"\n{0}: ret\n.section .data,"aw"\n.quad {0}\n'
          '.section .data.more,"aw"\n.long 5\n.section .note.GNU-stack\n')
MANY = " ".join(f"*(.none.{number})" for number in range(80))
"""More parentheses than a run of the profile may have operators, if they were counted."""


@needs("ld.bfd")
class PatternTest(BesideGnu):
    """Objects in folders."""

    def objects(self) -> list[str]:
        """Assembles two objects in folders, and one beside them."""
        return [self.compile(name, SOURCE.format(f"of_{number}"))
                for number, name in enumerate(("first.s", "lib/one/two.s", "lib/other/three.s"))]

    def same(self, script: str) -> None:
        """Links by both; nothing is said."""
        self.write("image.ld", f"ENTRY(of_0) SECTIONS {{ . = 0x100000; .text : {{ *(.text) }} {script} "
                   f".rest : {{ *(.data*) {MANY} }} }}")
        self.both("-T", "image.ld", *self.objects())
        self.assertNotIn("changed", self.links("-T", "image.ld", *self.objects(), "-o", "own").stderr)

    def test_quotes(self) -> None:
        """A text in quotes is a name, whatever is in it."""
        for own in ('*(EXCLUDE_FILE ("*/one/*" "*/libnone.*.a:" "*/two/*") .data)',
                    '*(EXCLUDE_FILE ("*/one/*") .data)\n*(EXCLUDE_FILE ("*/other/*" "*/none/*") .data.*)',
                    '"lib/*/t*"(.data)', '"lib/*"(.data) /* a ( comment */ *(.data.more)'):
            with self.subTest(own):
                self.same(f".one : {{ {own} }} .two (.) : {{ KEEP(*(.data)); {MANY} }}")

    def test_patterns(self) -> None:
        """A pattern of many signs, in which `/*` begins no comment."""
        for own in ("lib/*/two.o(.data)", "lib/*(.data) lib/*/*(.data.more)",
                    "*(EXCLUDE_FILE(*/one/* */two/*) .data)/* comment */"):
            with self.subTest(own):
                self.same(f".one : {{ {own} {MANY} }} .two (.) : {{ *(.data) }}")

    def test_parentheses(self) -> None:
        """An expression of more operators and parentheses than a run of the profile may have, as coreboot's."""
        for count in (10, 25, 40):
            terms = "|".join(f"(0x4000000>>{number % 20})" for number in range(count))
            with self.subTest(count):
                self.same(f"mask = ~(({terms}) - 1); .two mask & 0x7000000 : {{ *(.data) }}")


class NameTest(LinkTest):
    """Names of files, and of functions of GNU ld."""

    def test_long_name(self) -> None:
        """A name of 252 bytes in 84 characters."""
        self.write("t.ld", PLAIN)
        self.compile("a.s", ".globl _start\n_start: nop\n")
        name = "\N{CJK UNIFIED IDEOGRAPH-6F22}" * 84
        self.links("-T", "t.ld", "-o", name, "-Map", f"{name[:-2]}.m", "a.o")
        self.assertTrue((self.folder / name).is_file())

    def test_next_in_assert(self) -> None:
        """NEXT and BLOCK in an ASSERT are of the place where it stands."""
        self.compile("a.s", ".globl _start\n_start: nop\n")
        self.write("t.ld", """ENTRY(_start) SECTIONS { . = 0x1000; .text : { *(.text) } ASSERT(NEXT(16) == 0x1010, "x")
                              ASSERT(BLOCK(16) == 0x1010, "y") /DISCARD/ : { *(*) } }""")
        self.links("-T", "t.ld", "-o", "out", "a.o")
