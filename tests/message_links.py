"""Links with faults for the tests of messages: objects by gcc and as, messages by `ldi-watch`."""
from __future__ import annotations

import json
import os
import subprocess
import tempfile
import unittest
from collections.abc import Mapping
from dataclasses import dataclass
from functools import cache
from pathlib import Path
from typing import Any

from tests.programs import LDI_WATCH, LIMIT

SCRIPT = "SECTIONS { . = 0x401000; .text : { *(.text) } }"


@dataclass(frozen=True)
class Message:
    """A message: its sentence, and the line of `ldi` that it is of."""

    sentence: str
    line: str

    def __str__(self) -> str:
        return f"{self.sentence} [{self.line}]"


@cache
def built(command: tuple[str, ...], prefix_map: str, source: str, suffix: str) -> bytes:
    """The object of a source, which is `text` with this suffix in a folder of its own, as if in `/project`."""
    with tempfile.TemporaryDirectory() as folder:
        with open(os.path.join(folder, "text" + suffix), "w", encoding="ascii") as file:
            file.write(source + "\n")
        words = [*command, f"{prefix_map}={folder}=/project", "-o", "text.o", "text" + suffix]
        subprocess.run(words, cwd=folder, check=True, timeout=LIMIT)
        with open(os.path.join(folder, "text.o"), "rb") as file:
            return file.read()


def assembled(source: str, *flags: str) -> bytes:
    """An object by `as`, without the sections that it adds."""
    return built(("as", *flags), "--debug-prefix-map", source, ".s")


def compiled(source: str, *flags: str, compiler: str = "gcc") -> bytes:
    """An object of a C text."""
    words = (compiler, "-c", "-O1", "-fno-pic", "-ffreestanding", "-fno-asynchronous-unwind-tables")
    return built((*words, *flags), "-fdebug-prefix-map", source, ".c")


class MessageTest(unittest.TestCase):
    """A test that links by `ldi-watch --once`, in a folder of its own, and looks at the messages."""

    maxDiff = None

    def setUp(self) -> None:
        """Makes the folder."""
        folder = tempfile.TemporaryDirectory()
        self.addCleanup(folder.cleanup)
        self.folder = Path(folder.name)

    def state(self, script: str, objects: Mapping[str, bytes], *options: str) -> dict[str, Any]:
        """What is said of a link of a script `image.ld`: the one object of JSON that `ldi-watch` prints.

        Without objects there is an empty one, since each link has one.
        """
        objects = objects or {"empty.o": assembled("")}
        (self.folder / "image.ld").write_text(script, encoding="utf-8")
        for name, data in objects.items():
            (self.folder / name).write_bytes(data)
        words = [LDI_WATCH, "--once", "--json", "-T", "image.ld", "-o", "image", *options, "--", *objects]
        done = subprocess.run(words, cwd=self.folder, capture_output=True, text=True, timeout=LIMIT, check=False)
        self.assertEqual((len(done.stdout.splitlines()), done.stderr), (1, ""), done.stdout)
        return json.loads(done.stdout)

    def messages(self, script: str, objects: Mapping[str, bytes], *options: str) -> list[Message]:
        """The messages of a link with faults."""
        state = self.state(script, objects, *options)
        self.assertEqual(state["event"], "faults", state)
        return [Message(one["message"], one["line"]) for one in state["faults"]]

    def check(self, script: str, objects: Mapping[str, bytes], wanted: list[str], *options: str) -> None:
        """Checks the whole text of all messages of a link."""
        self.assertEqual([str(message) for message in self.messages(script, objects, *options)], wanted)
