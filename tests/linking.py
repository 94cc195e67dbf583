"""For the tests of `ld.ldi` and `ldi-gdb`: a folder with compiled sources, and programs run in it."""
from __future__ import annotations

import os
import shutil
import subprocess
import tempfile
import unittest
from collections.abc import Mapping
from pathlib import Path

from tests.programs import LD_LDI, LIMIT, ROOT

EXAMPLE = ROOT / "examples" / "linux"
FLAGS = ("-O2", "-ffreestanding", "-fno-pic", "-fno-stack-protector", "-ffunction-sections", "-fdata-sections")


class LinkTest(unittest.TestCase):
    """Tests in a temporary folder."""

    folder: Path

    def setUp(self) -> None:
        """Makes the folder."""
        self.folder = Path(tempfile.mkdtemp(prefix="ldi-test-"))
        self.addCleanup(shutil.rmtree, self.folder, ignore_errors=True)

    def write(self, name: str, text: str | bytes) -> Path:
        """Writes a file in the folder."""
        path = self.folder / name
        path.parent.mkdir(parents=True, exist_ok=True)
        path.write_bytes(text if isinstance(text, bytes) else text.encode())
        return path

    def compile(self, name: str, text: str, *flags: str) -> str:
        """Compiles a source, C or assembly by its name; gives the name of the object."""
        self.write(name, text)
        output = name.rsplit(".", 1)[0] + ".o"
        self.run_tool("gcc", *FLAGS, *flags, "-c", name, "-o", output)
        return output

    def compile_example(self, *flags: str) -> list[str]:
        """Copies examples/linux into the folder and compiles it; gives the names of the objects."""
        for file in EXAMPLE.iterdir():
            if file.suffix in (".c", ".ld"):
                shutil.copy(file, self.folder)
        names = ("system", "text", "main")
        self.run_tool("gcc", *FLAGS, *flags, "-c", *(f"{name}.c" for name in names))
        return [f"{name}.o" for name in names]

    def run_program(self, *words: str | Path, env: Mapping[str, str] | None = None) -> subprocess.CompletedProcess[str]:
        """Runs a program in the folder."""
        environment = {**os.environ, "LDI_FALLBACK": "none", "LDI_SERVER": "0", **(env or {})}
        # another linker, and a server, are for the tests that are about one
        return subprocess.run([str(word) for word in words], cwd=self.folder, env=environment, capture_output=True,
                              text=True, timeout=LIMIT, check=False, stdin=subprocess.DEVNULL)

    def run_tool(self, *words: str | Path) -> str:
        """Runs a program that must succeed; gives its standard output."""
        done = self.run_program(*words)
        self.assertEqual(done.returncode, 0, f"{words}: {done.stdout}{done.stderr}")
        return done.stdout

    def ld(self, *words: str, env: Mapping[str, str] | None = None) -> subprocess.CompletedProcess[str]:
        """Runs `ld.ldi`."""
        return self.run_program(LD_LDI, *words, env=env)

    def links(self, *words: str) -> subprocess.CompletedProcess[str]:
        """Runs `ld.ldi`, which must succeed."""
        done = self.ld(*words)
        self.assertEqual(done.returncode, 0, done.stderr)
        return done


class BesideGnu(LinkTest):
    """Links that are made by GNU ld too."""

    def both(self, *words: str) -> None:
        """Links by both, with the same outcome: the symbols and the bytes of the images are the same."""
        own = self.ld(*words, "-o", "own")
        gnu = self.run_program("ld.bfd", "--no-warn-rwx-segments", *words, "-o", "gnu")
        self.assertEqual(own.returncode == 0, gnu.returncode == 0, own.stderr + gnu.stderr)
        if own.returncode == 0:
            self.assertEqual(self.looks("own"), self.looks("gnu"), words)

    def looks(self, image: str) -> tuple[list[str], bytes]:
        """The symbols of an image that are not local, but for those of the adapter, and its bytes."""
        lines = [line.split() for line in self.run_tool("nm", image).splitlines()]
        symbols = sorted(f"{line[0]} {line[2]}" for line in lines
                         if len(line) == 3 and line[1].isupper() and not line[2].startswith(("ldi.", "ld.ldi.")))
        self.run_tool("objcopy", "-O", "binary", image, image + ".bin")
        return symbols, (self.folder / f"{image}.bin").read_bytes()


def needs(*programs: str) -> unittest.case._SkipTest | object:
    """Skips a test where one of the programs is not there."""
    missing = [program for program in programs if shutil.which(program) is None]
    return unittest.skipIf(missing, f"not there: {', '.join(missing)}")
