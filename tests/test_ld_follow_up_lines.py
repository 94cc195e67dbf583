"""What follows from what a line of the report names is one line more."""
from __future__ import annotations

from tests.linking import LinkTest


class ConsequencesTest(LinkTest):
    """Links of which GNU ld's image is another."""

    def test_consequences(self) -> None:
        """One line for all that follows of what a line names; all of it with --verbose."""
        self.compile("more.s", ' .globl _start\n .text\n_start: nop\n' + "".join(
            f' .section .text{n},"ax"\n .balign 16\n .byte {n}\n' for n in (1, 2, 3)))
        self.write("t.ld", "SECTIONS { . = 0x1000; .text : SUBALIGN(1) { *(.text*) } end = .; "
                           "/DISCARD/ : { *(.note*) } }")
        quiet, every = (self.links("-T", "t.ld", "-o", "image", "more.o", *words).stderr.splitlines()
                        for words in ((), ("--verbose",)))
        quiet, every = ([line for line in lines if ": changed: " in line] for lines in (quiet, every))
        self.assertEqual(len(quiet), 2, quiet)
        self.assertRegex(quiet[1], r"t\.ld:1: changed: \.text is .*; to GNU ld it is .*, and \d more$")
        self.assertGreater(len(every), 3, every)
