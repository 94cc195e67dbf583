"""NOCROSSREFS and NOCROSSREFS_TO, beside GNU ld."""
from __future__ import annotations

from tests.beside import NONE, PLAIN, START
from tests.programs import OutsideTest, needs


@needs("ld.bfd")
class CrossReferenceTest(OutsideTest):
    """NOCROSSREFS and NOCROSSREFS_TO."""

    def setUp(self) -> None:
        """Code that calls a function of `.init.text`, which names a local symbol of `.data`."""
        super().setUp()
        self.compile("a.s", ".globl _start, v\n_start: call first\n call first\n.data\nv: .quad 1\nown: .quad 2\n")
        self.compile("b.s", '.section .init.text, "ax"\n.globl first\nfirst: mov near, %eax\n ret\n'
                            '.data\nnear: .quad 1\n')

    def tried(self, line: str, *words: str) -> tuple[int, str]:
        """The status of a link under a script with this line, which is 0 exactly if GNU ld's is, and what is said."""
        self.write("t.ld", f"""{line}
            SECTIONS {{ . = 0x1000; .text : {{ *(.text) }} .init.text : {{ *(.init.text) }}
            .data : {{ *(.data) here = .; }} /DISCARD/ : {{ *(.note*) }} }}""")
        done = self.ld("-e", "_start", *words, "-T", "t.ld", "a.o", "b.o", "-o", "own", env=NONE)
        gnu = self.run_program("ld.bfd", "-e", "_start", *words, "-T", "t.ld", "a.o", "b.o", "-o", "gnu")
        self.assertEqual(done.returncode == 0, gnu.returncode == 0, (line, done.stderr, gnu.stderr))
        return done.returncode, done.stderr

    def test_prohibited(self) -> None:
        """References by global and by local symbols; which sections a list is of."""
        for line, status in (("NOCROSSREFS(.text .init.text)", 1), ("NOCROSSREFS(.init.text .data)", 1),
                             ("NOCROSSREFS(.text .data)", 0), ("NOCROSSREFS_TO(.init.text .text)", 1),
                             ("NOCROSSREFS_TO(.text .init.text)", 0), ("NOCROSSREFS_TO(.data .text .init.text)", 1),
                             ("NOCROSSREFS(.text .none)", 0), ("", 0)):
            for words in ((), ("--gc-sections",)):
                with self.subTest(line=line, words=words):
                    self.assertEqual(self.tried(line, *words)[0], status)

    def test_message(self) -> None:
        """Each relocation is said, with its place, the symbol and both sections; no image is written."""
        _, said = self.tried("NOCROSSREFS(.text .init.text)")
        lines = [line for line in said.splitlines() if "prohibited cross reference" in line]
        self.assertEqual(len(lines), 2, said)
        for line, place in zip(lines, ("a.o: (.text+0x1)", "a.o: (.text+0x6)")):
            for part in (place, "first", ".init.text"):
                self.assertIn(part, line)
        self.assertFalse((self.folder / "own").exists())

    def test_with_a_server(self) -> None:
        """A reference that comes with an edit which changes no size is found by a later call."""
        self.write("t.ld", f"NOCROSSREFS(.text .data)\n{PLAIN}")
        self.compile("a.s", START + " .long 4\n.data\n.globl v\nv: .quad 1\n")
        self.serves("-T", "t.ld", "a.o", "-o", "own", env=NONE)
        before = self.read("own")
        self.compile("a.s", START + " .long v\n.data\n.globl v\nv: .quad 1\n")
        self.assertEqual(self.serve("-T", "t.ld", "a.o", "-o", "own", env=NONE).returncode, 1)
        self.assertEqual(self.read("own"), before)
