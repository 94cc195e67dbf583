"""The tests of binutils' ld that link by a script, as links by GNU ld and by `ld.ldi` with the words of each test."""
from __future__ import annotations

import re
import shlex
import subprocess
from collections.abc import Iterator
from dataclasses import dataclass
from pathlib import Path

from tests.adapt_builds import Noted, linked
from tests.adapt_compare import LinkFailed, differences

OTHER_LINKS = re.compile(r"-shared|-r\b|-Ur|-pie|-q\b|--emit-relocs|i386|elf32|x32|l1om|k1om|--32|tmpdir|\$|bndplt|-b ")
"""In the words of a test: a link of another kind, or for another machine."""


@dataclass(frozen=True)
class Test:
    """A test: the file that says it, the words of its link, and its sources with the words of the assembler."""

    path: Path
    words: list[str]
    sources: list[list[str]]


def tests_in(folder: Path) -> Iterator[Test]:
    """The tests below a folder that make a static link by `-T` for x86-64, as far as their files say so."""
    for path in sorted(folder.glob("*/*.d")):
        text = path.read_text(encoding="utf-8", errors="replace")
        said = {name: re.findall(rf"^#\s*{name}:\s*(.*)$", text, re.M) for name in ("ld", "as", "source")}
        words, flags = (" ".join(said[name][:1]) for name in ("ld", "as"))
        if "-T" not in words or OTHER_LINKS.search(f"{words} {flags}"):
            continue
        sources = [line.split() for line in said["source"] if line.strip()] or [[path.with_suffix(".s").name]]
        yield Test(path, shlex.split(words), [[*shlex.split(flags), *source[1:], source[0]] for source in sources])


def assembled(test: Test, folder: Path) -> list[str] | None:
    """The objects of a test; None where `as` makes none for x86-64."""
    objects = []
    for number, words in enumerate(test.sources):
        objects.append(str(folder / f"{test.path.parent.name}-{test.path.stem}.{number}.o"))
        done = subprocess.run(["as", "--64", *words, "-o", objects[-1]], cwd=test.path.parent, capture_output=True,
                              timeout=180, check=False)
        if done.returncode:
            return None
    return objects


def outcome(test: Test, folder: Path) -> str:
    """What came of a test: `same`, `differs, which is said`, `differs`, or who makes no link."""
    objects = assembled(test, folder)
    if objects is None:
        return "not for x86-64"
    try:
        gnu, ldi, said = linked(Noted(str(test.path.parent), [*test.words, *objects], {}), folder)
    except LinkFailed as fault:
        return "not linked by GNU ld" if "ld.bfd: " in str(fault) else "not linked by ld.ldi"
    found = differences(gnu, ldi)
    (folder / f"{test.path.parent.name}-{test.path.stem}.said").write_text("\n".join([*found, "", said]))
    if not found:
        return "same"
    return "differs, which is said" if ": changed: " in said else "differs"
