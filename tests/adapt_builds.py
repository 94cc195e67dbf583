"""Links of a project's own build, by GNU ld and again by `ld.ldi` with the same words."""
from __future__ import annotations

import json
import os
import re
import struct
import subprocess
from pathlib import Path

from tests.adapt_compare import LinkFailed, Placed, read_image, read_map
from tests.programs import LD_LDI

NOTING = """#!/usr/bin/python3
# GNU ld, which notes its folder and its words, and keeps objects that the build may take away.
import json, os, shutil, sys
noted = os.environ["NOTED"]
kept = {}
before = ""
for word in sys.argv[1:]:
    passing = word.startswith("/tmp/") or os.path.basename(word).startswith(".")
    if passing and word.endswith(".o") and before != "-o" and os.path.isfile(word):
        kept[word] = f"{noted}.{os.getpid()}.{len(kept)}.o"
        shutil.copyfile(word, kept[word])
    before = word
with open(noted, "a", encoding="utf-8") as file:
    file.write(json.dumps([os.getcwd(), sys.argv[1:], kept]) + "\\n")
os.execv("/usr/bin/ld.bfd", ["ld.bfd", *sys.argv[1:]])
"""


class NoLink(Exception):
    """A build that made no such link; `str()` says what it did."""


class Noted:
    """A link of a build: its folder and its words, and the copies of its objects that the build may take away."""

    def __init__(self, folder: str, words: list[str], kept: dict[str, str]) -> None:
        self.folder, self.words, self.kept = folder, words, kept

    def output(self) -> str:
        """The file that it makes."""
        joined = next((word[2:] for word in self.words if word.startswith("-o") and len(word) > 2), "a.out")
        return self.words[self.words.index("-o") + 1] if "-o" in self.words else joined

    def has_script(self) -> bool:
        """Whether it is a link by a script."""
        return any(re.match(r"-T(?!text|data|bss)|--script", word) for word in self.words) and "-r" not in self.words

    def again(self, out: str) -> list[str]:
        """The words for another file: a static link without a build id, with symbols and no relocations, as ELF."""
        result: list[str] = []
        rest = [word for word in self.words if not _is_left_out(word)]
        while rest:
            word = rest.pop(0)
            if word in ("-o", "-Map", "--Map", "--oformat", "-plugin"):
                rest.pop(0)
            elif not word.startswith(("--oformat=", "-Map=", "--Map=", "-plugin-opt=")):
                result.append(self.kept.get(word, word))
        return [*result, "--build-id=none", "--oformat=elf64-x86-64", "-o", out]


def _is_left_out(word: str) -> bool:
    return word in ("-s", "--strip-all", "-S", "--strip-debug", "-pie", "-q", "--emit-relocs") \
        or word.startswith("--build-id")


def build(commands: str, root: Path, folder: Path) -> list[Noted]:
    """The links that a project's build makes; `$LD` is the linker, and gcc finds it too."""
    programs = folder / "bin"
    programs.mkdir(parents=True, exist_ok=True)
    for name in ("ld", "ld.bfd"):
        (programs / name).write_text(NOTING, encoding="utf-8")
        (programs / name).chmod(0o755)
    noted = folder / "links"
    done = folder / "built"
    if not done.exists():
        noted.write_text("", encoding="utf-8")
        environment = {**os.environ, "NOTED": str(noted), "LD": str(programs / "ld"), "COMPILER_PATH": str(programs),
                       "PATH": "/usr/bin:/bin:/usr/sbin:/sbin"}
        run = subprocess.run(["sh", "-e", "-c", commands], cwd=root, env=environment, capture_output=True, text=True,
                             timeout=3600, check=False)
        (folder / "log").write_text(run.stdout + run.stderr, encoding="utf-8")
        if run.returncode:
            raise NoLink(f"its build: {([*run.stderr.strip().splitlines(), ''])[0]}")
        done.touch()
    return [Noted(*json.loads(line)) for line in noted.read_text(encoding="utf-8").splitlines()]


def link_of(links: list[Noted], output: str) -> Noted:
    """The last link that makes a file."""
    found = [link for link in links if link.output() == output and link.has_script()]
    if not found:
        raise NoLink(f"no link makes {output}")
    return found[-1]


def linked(link: Noted, folder: Path) -> tuple[Placed, Placed, str]:
    """What GNU ld and `ld.ldi` make of a link, and what `ld.ldi` says.

    GNU ld links copies of the objects whose sections have no flags MERGE and STRINGS: `ldi` merges no strings.
    """
    for name in ("gnu.out", "ldi.out", "ldi.map"):
        (folder / name).unlink(missing_ok=True)  # of an earlier link
    gnu = [_unmerged(word, link.folder, folder / "unmerged") for word in link.again(str(folder / "gnu.out"))]
    _run(["/usr/bin/ld.bfd", *gnu], link.folder)
    with open(folder / "gnu.out", "rb") as file:
        placed = read_image(file.read())
    program = [LD_LDI, "--Map-format=ldi", "--Map", str(folder / "ldi.map")]
    said = _run([*program, *link.again(str(folder / "ldi.out"))], link.folder)
    with open(folder / "ldi.map", "rb") as file:
        return placed, read_map(file.read()), said


def _unmerged(word: str, root: str, folder: Path) -> str:
    """The word for a copy without MERGE and STRINGS, where it names an object, or an archive as a kernel has."""
    path = Path(root, word)
    if word.startswith("-") or not path.is_file():
        return word
    copy = folder / (word if not os.path.isabs(word) else word[1:])
    with open(path, "rb") as file:
        data = file.read()
    if data.startswith(b"\x7fELF"):
        _write(copy, _without_merge(data))
    elif data.startswith(b"!<thin>"):
        members = subprocess.run(["ar", "t", word], cwd=root, capture_output=True, text=True, check=True,
                                 timeout=180).stdout.split()
        copies = [_unmerged(member, root, folder) for member in members]
        copy.parent.mkdir(parents=True, exist_ok=True)
        copy.unlink(missing_ok=True)
        subprocess.run(["ar", "cDPrsT", copy, *copies], check=True, timeout=180, capture_output=True)
    else:
        return word
    return str(copy)


def _without_merge(data: bytes) -> bytes:
    """An object without these two flags of its sections."""
    changed = bytearray(data)
    offset, = struct.unpack_from("<Q", data, 40)
    count, = struct.unpack_from("<H", data, 60)
    for at in range(offset + 8, offset + 64 * count, 64):
        flags, = struct.unpack_from("<Q", data, at)
        struct.pack_into("<Q", changed, at, flags & ~0x30)
    return bytes(changed)


def _write(path: Path, data: bytes) -> None:
    path.parent.mkdir(parents=True, exist_ok=True)
    path.write_bytes(data)


def _run(words: list[str], folder: str) -> str:
    """What a linker says; it links by itself, without another one behind it."""
    environment = {**os.environ, "LDI_FALLBACK": "none"}
    done = subprocess.run(words, cwd=folder, env=environment, capture_output=True, text=True, timeout=1800, check=False)
    if done.returncode:
        reasons = re.sub(r"(?m)^.*(warning|NOTE|changed|no entry symbol): .*\n?", "", done.stderr)
        raise LinkFailed(reasons or f"status {done.returncode}")
    return done.stderr
