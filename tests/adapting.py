"""Calls of `ldi-adapt`: the script that it writes, its status, and the lines of its report."""
from __future__ import annotations

import os
import re
import subprocess
from dataclasses import dataclass

from tests.programs import LDI, LDI_ADAPT

NOTE = re.compile(r"(.*?):([0-9]+): (dropped|rewritten|changed|left): (.*)")


@dataclass(frozen=True)
class Note:
    """A line of the report."""

    path: str
    line: int
    kind: str
    text: str


@dataclass(frozen=True)
class Adapted:
    """What a call gave: its status, standard output and standard error."""

    status: int
    text: bytes
    errors: str

    @property
    def report(self) -> list[Note]:
        """The lines of the report."""
        found = filter(None, map(NOTE.fullmatch, self.errors.splitlines()))
        return [Note(match[1], int(match[2]), match[3], match[4]) for match in found]

    @property
    def script(self) -> str:
        """The adapted script."""
        return self.text.decode("latin-1")


def adapt(*words: str | os.PathLike[str], cwd: str | os.PathLike[str] = ".") -> Adapted:
    """Calls `ldi-adapt` in a folder."""
    done = subprocess.run([LDI_ADAPT, *words], cwd=cwd, env={**os.environ, "LDI": LDI}, capture_output=True,
                          timeout=180, check=False)
    return Adapted(done.returncode, done.stdout, done.stderr.decode("utf-8", "replace"))
