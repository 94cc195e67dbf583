"""`ld.ldi`: links that another linker makes, which is never `ld.ldi` itself."""
from __future__ import annotations

import os
from collections.abc import Mapping

from tests.linking import LinkTest, needs
from tests.programs import LD_LDI
from tests.test_ld_link import PLAIN

NO_MEMORY = """#!/usr/bin/python3
import sys
while line := sys.stdin.buffer.readline():
    words = line.decode().split()
    sys.stdin.buffer.read(int(words[-1]) if words[0] in ("add", "script") else 0)
    print("refused 7 0" if words[0] == "REFUSED" else "accepted", flush=True)
"""


class FallbackTest(LinkTest):
    """LDI_FALLBACK, and the linker that is asked for its default script."""

    def setUp(self) -> None:
        """An object, and a folder for PATH in which `ld.bfd` is `ld.ldi`."""
        super().setUp()
        self.compile("a.s", ".globl _start\n_start: nop\n")
        self.own = self.folder / "own"
        self.own.mkdir()
        (self.own / "ld.bfd").symlink_to(LD_LDI)
        (self.folder / "run").mkdir(mode=0o700)

    def env(self, **more: str) -> Mapping[str, str]:
        """The folder before all others, and a runtime folder of the test."""
        return {"PATH": f"{self.own}:{os.environ['PATH']}", "XDG_RUNTIME_DIR": str(self.folder / "run"), **more}

    def test_never_itself(self) -> None:
        """The folder of `gcc -B` on PATH, alone and before others; a script there that leads back: no chain."""
        for path in (str(self.own), f"{self.own}:{os.environ['PATH']}"):
            done = self.run_program(LD_LDI, "-o", "out", "a.o", env={"PATH": path})
            self.assertEqual(done.returncode, 0, done.stderr)
        (self.own / "ld.bfd").unlink()
        script = self.write("own/ld.bfd", f'#!/bin/sh\necho >> "{self.folder}/calls"\nexec "{LD_LDI}" "$@"\n')
        script.chmod(0o755)
        self.assertEqual(self.ld("-o", "out", "a.o", env=self.env()).returncode, 0)
        self.assertEqual((self.folder / "calls").read_bytes(), b"\n")

    @needs("ld.bfd")
    def test_fallback_is_another(self) -> None:
        """`ld.bfd` as LDI_FALLBACK is the next one on PATH that is not `ld.ldi`; its path is refused where it is."""
        done = self.ld("-r", "-o", "r.o", "a.o", env=self.env(LDI_FALLBACK="ld.bfd"))
        self.assertEqual((done.returncode, done.stderr), (0, "ld.ldi: -r: relocatable output: linked by ld.bfd\n"))
        for text, why in ((str(self.own / "ld.bfd"), "is ld.ldi itself"), ("ld.nothing", "no such linker on PATH"),
                          ("ld 'x", "no closing quotation")):
            done = self.ld("-r", "a.o", env=self.env(LDI_FALLBACK=text))
            self.assertEqual(done.returncode, 3, done.stderr)
            self.assertIn(why, done.stderr)
            self.assertEqual(len(done.stderr.splitlines()), 1, done.stderr)

    @needs("ld.bfd")
    def test_own_options(self) -> None:
        """Options that GNU ld does not have are not passed on, shortened or in a response file."""
        self.write("words", "--no-serv --Map-format 'gnu' -o r.o")
        for words in (("--no-serv", "-o", "r.o"), ("@words",), ("-no-server", "@words", "--Map-f=gnu")):
            done = self.ld("-r", "a.o", *words, env=self.env(LDI_FALLBACK="ld.bfd"))
            self.assertEqual(done.returncode, 0, done.stderr)
            (self.folder / "r.o").unlink()

    def test_no_memory(self) -> None:
        """A session without memory for an object, or for the link: status 4, no image, and no other linker."""
        self.write("t.ld", PLAIN)
        for refused in "add", "link":
            with self.subTest(refused=refused):
                self.write("ldi", NO_MEMORY.replace("REFUSED", refused)).chmod(0o755)
                done = self.ld("-T", "t.ld", "-o", "out", "a.o", env={"LDI": str(self.folder / "ldi")})
                self.assertEqual(done.returncode, 4, done.stderr)
                self.assertIn("refused 7 0", done.stderr)
                self.assertNotIn("linked by", done.stderr)
                self.assertFalse((self.folder / "out").exists())

    @needs("ld.bfd", "make")
    def test_said_once_a_build(self) -> None:
        """What a build hands over is said once for each reason, and for each link by --verbose."""
        self.write("Makefile", "all: 1 2 3\n1 2 3:\n\t$(LD) -r $(WORDS) -o $@.o a.o\n\t$(LD) -m elf_i386 a.o || true\n")
        env = self.env(LDI_FALLBACK="ld.bfd")
        for words, count in (("-j3", 1), ("-j3", 1), ("WORDS=--verbose", 3)):
            done = self.run_program("make", words, f"LD={LD_LDI}", env=env)
            self.assertEqual(done.returncode, 0, done.stderr)
            self.assertEqual(done.stderr.count("-r: relocatable output: linked by ld.bfd"), count, done.stderr)
            self.assertEqual(done.stderr.count("-m elf_i386: unsupported machine: linked by ld.bfd"), 1, done.stderr)
        left = [name for name in os.listdir(self.folder / "run" / "ldi") if name.startswith("told.")]
        self.assertLessEqual(len(left), 2, "what was told in builds that have ended is removed")
        for _ in range(2):
            self.assertIn("linked by", self.ld("-r", "-o", "r.o", "a.o", env=env).stderr)
