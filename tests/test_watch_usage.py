"""`ldi-watch --print-memory-usage`: what an edit did to sizes."""
from __future__ import annotations

import json
import subprocess

from tests.programs import LDI_WATCH
from tests.test_watch_commands import FolderTest
from tests.watching import PATIENCE, default_signals

SCRIPT = b"""ENTRY(_start)
MEMORY { rom (rx) : ORIGIN = 0x401000, LENGTH = 1000  ram : ORIGIN = 0x500000, LENGTH = 4K }
SECTIONS { .numbers : { *(.numbers) } > rom .text : { *(.text) *(.tail) } > rom .data : { *(.data) } > ram }
"""


class UsageTest(FolderTest):
    """The lines after edits."""

    def begin(self, *words: str) -> None:
        """Starts a watch."""
        self.folder.put("t.ld", SCRIPT)
        self.watching = subprocess.Popen([LDI_WATCH, "-T", "t.ld", "-o", "image", *words, *self.folder.names],
                                         cwd=self.folder.path, stdout=subprocess.PIPE, text=True,
                                         preexec_fn=default_signals)
        self.addCleanup(self.end)

    def end(self) -> None:
        """Ends it."""
        self.watching.terminate()
        self.watching.communicate(timeout=PATIENCE)

    def line(self) -> str:
        """The next line."""
        assert self.watching.stdout is not None
        return self.watching.stdout.readline().rstrip("\n")

    def test_lines(self) -> None:
        """First the regions, then sections that grew or shrank and regions that have more or less; nothing else."""
        self.begin("--print-memory-usage")
        first = sum(len(one) for one in (b"x" * 16 * 3, b"x" * (32 + 8) * 3))
        self.assertRegex(self.line(),
                         rf"^image: [0-9.]+ ms after t\.ld and 3 more; rom {first / 10:.1f} %, ram 0\.0 %$")
        self.folder.renew(1, 2)
        self.assertRegex(self.line(), rf"^image: [0-9.]+ ms after o1\.o; \.text \+16, rom {(first + 16) / 10:.1f} %$")
        self.folder.renew(1, 5)
        self.assertRegex(self.line(), r"^image: [0-9.]+ ms after o1\.o$")
        self.folder.renew(1, 3)
        self.assertRegex(self.line(), rf"^image: [0-9.]+ ms after o1\.o; \.text -32, rom {(first - 16) / 10:.1f} %$")

    def test_after_a_fault(self) -> None:
        """What is said is since the image that was in place last."""
        self.begin("--print-memory-usage")
        self.line()
        old = (self.folder / "o2.o").read_bytes()
        self.folder.put("o2.o", b"no object")
        self.assertIn("o2.o", self.line())
        self.assertIn("the old image stays", self.line())
        self.folder.renew(1, 2)
        self.folder.put("o2.o", old)
        self.assertRegex(self.line(), r"^image: .*; \.text \+16, rom [0-9.]+ %$")

    def test_json(self) -> None:
        """The same as lists."""
        self.begin("--print-memory-usage", "--json")
        found = json.loads(self.line())
        self.assertEqual([(one["name"], one["length"]) for one in found["regions"]], [("rom", 1000), ("ram", 4096)])
        self.folder.renew(1, 2)
        found = json.loads(self.line())
        self.assertEqual(found["sections"], [{"name": ".text", "more": 16}])
        self.assertEqual([one["name"] for one in found["regions"]], ["rom"])

    def test_without(self) -> None:
        """Without the option nothing is said of sizes, by people's lines and by JSON."""
        self.begin("--json")
        self.assertNotIn("regions", json.loads(self.line()))
