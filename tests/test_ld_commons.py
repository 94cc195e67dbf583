"""Common blocks: their order and padding, beside GNU ld."""
from __future__ import annotations

import random

from tests.beside import NONE, PLAIN, BesideTest
from tests.images import read_image
from tests.programs import LDI_WATCH


class CommonTest(BesideTest):
    """Common blocks: their order and padding."""

    def blocks(self) -> list[str]:
        """Four files, with seven common blocks in each."""
        choice, kinds = random.Random(1), ("char", "short", "int", "long")
        names = []
        for file in range(4):
            text = "".join(f"{choice.choice(kinds)} c{file}_{n}[{choice.randrange(1, 20)}];\n" for n in range(7))
            text += "int _start(void) { return c0_0[0]; }\n" if file == 0 else ""
            names.append(self.compile(f"f{file}.c", text, "-fcommon"))
        return names

    def test_default_script(self) -> None:
        """Seven to a file in four files, under GNU ld's default script: nothing is said, and all is as GNU ld's."""
        self.same(*self.blocks())
        self.assertEqual(self.ld(*self.blocks(), "-o", "own", env=NONE).stderr, "")

    def test_script(self) -> None:
        """The same under a script of the user."""
        self.write("t.ld", PLAIN)
        self.same("-T", "t.ld", *self.blocks())

    def test_arrays(self) -> None:
        """Blocks of which several files have other sizes."""
        self.write("t.ld", PLAIN)
        names = [self.compile(f"{name}.c", text, "-fcommon") for name, text in (
            ("a", "int com3[5], com4[4]; int _start(void) { return com3[0]; }\n"), ("b", "int com2[8], com3[4];\n"),
            ("c", "int com2[4], com4[9];\n"))]
        self.same("-T", "t.ld", *names)

    def test_watch(self) -> None:
        """`ldi-watch` makes the image of the same words under the default script's text."""
        text = self.must("ld.bfd", "-static", "--verbose").split("=" * 50 + "\n")[1]
        self.write("default.ld", text)
        names = self.blocks()
        self.must(LDI_WATCH, "--once", "-T", "default.ld", "-o", "own", *names, env=NONE)
        self.must("ld.bfd", "-T", "default.ld", "-o", "gnu", *names)
        self.assertEqual(read_image(self.read("own")).places(), read_image(self.read("gnu")).places())

    def test_a_build_goes_on(self) -> None:
        """None of them ends a build, or leaves a worse image than GNU ld's, also by a later call."""
        self.write("t.ld", PLAIN)
        blocks = self.blocks()
        for words in (("-T", "t.ld"), ()):
            self.must("ld.bfd", *words, "-o", "gnu", *blocks)
            for links in (self.links, self.serves, self.serves):
                done = links(*words, "-o", "own", *blocks)
                self.assertLessEqual(len(done.stderr.splitlines()), 1 + done.stderr.count("warning: "), done.stderr)
                self.assertEqual(read_image(self.read("own")).symbols, read_image(self.read("gnu")).symbols)
