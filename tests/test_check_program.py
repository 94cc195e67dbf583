"""`ldi-adapt --check`: why a script is refused, on all scripts of the stored run of `readscript`."""
from __future__ import annotations

import os
import re
import subprocess
import tempfile
from collections.abc import Iterator
from concurrent.futures import ThreadPoolExecutor
from pathlib import Path

from tests.programs import LDI_ADAPT, LIMIT, ROOT, OutsideTest

READER = ROOT / "crates" / "readscript"
PLACE = re.compile(r"s:(\d+): refused: \S.*")


def stored_scripts() -> Iterator[tuple[bytes, str]]:
    """The scripts of the stored run, each with the first line of its answer after the text."""
    said = re.split(r"^(?=(?:script|numbers|tokens) \d+$|match \")", (READER / "stdout").read_text(), flags=re.M)[1:]
    rest = (READER / "stdin").read_bytes().lstrip()
    for answer in said:
        line, _, rest = rest.partition(b"\n")
        word, *lengths = line.decode().split(" ")
        length = sum(map(int, lengths))
        lines = [line for line in answer.splitlines()[1:] if line and not line.startswith("| ")]
        if word == "script":
            yield rest[:length], lines[0] if lines else ""
        rest = rest[length:].lstrip()


def check(folder: str, number: int, text: bytes) -> tuple[int, list[str]]:
    """The status of `ldi-adapt --check` of a text, and its lines."""
    own = Path(folder) / str(number)
    own.mkdir()
    (own / "s").write_bytes(text)
    done = subprocess.run([LDI_ADAPT, "--check", "s"], cwd=own, env={**os.environ, "TMPDIR": str(own)},
                          capture_output=True, timeout=LIMIT, check=False)
    return done.returncode, done.stderr.decode(errors="replace").splitlines()


class CheckTest(OutsideTest):
    """What is said, and the status."""

    def test_stored_scripts(self) -> None:
        """Each refused text has its number and a place, in order; of a script no line says that it is refused."""
        scripts = [*stored_scripts()]
        self.assertGreater(len(scripts), 1000)
        with tempfile.TemporaryDirectory() as folder, ThreadPoolExecutor(os.cpu_count()) as threads:
            results = threads.map(lambda one: check(folder, *one), enumerate(text for text, _ in scripts))
            for (text, answer), (status, lines) in zip(scripts, results):
                shown = (text[:200], lines)
                if not answer.startswith("refused "):
                    self.assertFalse([line for line in lines if "refused: " in line or ": refused 5" in line], shown)
                    continue
                self.assertEqual(status, 2, shown)
                self.assertTrue(lines and lines[0].startswith(f"s: refused 5 {answer.split()[1]}: "), shown)
                places = [PLACE.fullmatch(line) for line in lines[1:]]
                numbers = [int(place[1]) for place in places if place]
                self.assertTrue(numbers and None not in places, shown)
                self.assertEqual(numbers, sorted(numbers), shown)
                self.assertLessEqual(numbers[-1], text.count(b"\n") + 1, shown)

    def test_statuses(self) -> None:
        """0 if the script means the same to GNU ld, 1 if not, 2 if it is refused; no script is written."""
        for text, status, part in (
                ("SECTIONS { .text : { *(.text) } }", 0, ""),
                ("SECTIONS { .t : { b.o(.text) *(.text) } }", 1, "s:1: changed: b.o: "),
                ("x=1;", 1, "s:1: changed: ldi takes it, and GNU ld refuses it: "),
                ("SECTIONS { .t : { *(.text) x = 0x10; } }", 0, "s:1: rewritten: x = 0x10"),
                ("TARGET(a)\n\nx = .;", 2, "s:3: refused: `.` may not stand outside of SECTIONS")):
            self.write("s", text)
            done = self.run_program(LDI_ADAPT, "--check", "s")
            self.assertEqual((done.returncode, done.stdout), (status, ""), done.stderr)
            self.assertIn(part, done.stderr)

    def test_included_files(self) -> None:
        """What an included file has is said with its own lines."""
        self.write("s", "INCLUDE in.ld\n")
        self.write("in.ld", "x = 1;\ny = MAX(1, 2);\n")
        done = self.run_program(LDI_ADAPT, "--check", "s")
        self.assertEqual(done.returncode, 2)
        self.assertIn("s:1: refused: INCLUDE in.ld is not in the profile", done.stderr)
        self.assertIn("in.ld:2: refused: MAX is not in the profile", done.stderr)

    def test_without_the_reader(self) -> None:
        """Where `readscript` cannot be had, all that the profile has not counts."""
        self.write("s", "x = MAX(1, 2);")
        done = self.run_program(LDI_ADAPT, "--check", "s", env={"LDI": "/none/ldi", "PATH": ""})
        self.assertEqual((done.returncode, done.stderr.count("\n")), (2, 1), done.stderr)
