"""A small project in a folder of its own, and `ldi-watch` over it, for tests."""
from __future__ import annotations

import json
import os
import queue
import shutil
import signal
import subprocess
import sys
import tempfile
import threading
import time
from collections.abc import Callable
from pathlib import Path
from typing import Any

from tests.programs import LDI, LDI_WATCH, PATIENCE, ROOT

sys.path.insert(0, str(ROOT / "tools"))

from calculator import elf  # noqa: E402
from calculator.build import CODE, READ_ONLY, Rel, Sec, Sym, build  # noqa: E402
NUMBERS_AT = 0x1000
SCRIPT = b"""ENTRY(_start)
SECTIONS {
  . = 0x401000;
  .numbers : { *(.numbers) }
  .text : { *(.text) *(.tail) }
}
"""
PLT32 = 4


def numbered(number: int, version: int, count: int, calls: str | None = None) -> bytes:
    """Object `number` of `count`: its number and version in `.numbers`, and a function that calls the next one's.

    The version stands once more after the function, in `.tail`, so that halves of two versions make none.
    """
    text = bytes([0x90]) * (16 + 16 * (version % 3))
    symbols = [Sym(f"f{number}", 2, 0, len(text), elf.STB_GLOBAL, elf.STT_FUNC)]
    if number == 0:
        symbols.append(Sym("_start", 2, 0, len(text), elf.STB_GLOBAL, elf.STT_FUNC))
    called = calls or f"f{(number + 1) % count}"
    if called not in [symbol.name for symbol in symbols]:
        symbols.append(Sym(called))
    numbers = number.to_bytes(8, "little") + version.to_bytes(8, "little")
    sections = [
        Sec(".numbers", numbers, READ_ONLY, alignment=8),
        Sec(".text", text, CODE, alignment=16),
        Sec(".tail", numbers[8:], CODE),
    ]
    return build(sections, symbols, [Rel(2, 1, PLT32, called, -4)])


def versions_in(image: bytes, count: int) -> tuple[int, ...]:
    """The versions of the objects that an image of `count` objects was made of, in their order."""
    pairs = [image[NUMBERS_AT + 16 * at : NUMBERS_AT + 16 * at + 16] for at in range(count)]
    return tuple(int.from_bytes(pair[8:], "little") for pair in pairs)


class Folder:
    """A folder with a script, `t.ld`, and objects `o0.o`, `o1.o`, .. of version 1."""

    def __init__(self, count: int = 3) -> None:
        self.path = Path(tempfile.mkdtemp(prefix="ldi-watch-test-"))
        self.names = [f"o{number}.o" for number in range(count)]
        (self.path / "t.ld").write_bytes(SCRIPT)
        for number, name in enumerate(self.names):
            (self.path / name).write_bytes(numbered(number, 1, count))

    def __truediv__(self, name: str) -> Path:
        return self.path / name

    def put(self, name: str, data: bytes) -> None:
        """Puts a file in place by a rename."""
        (self / (name + ".tmp")).write_bytes(data)
        os.rename(self / (name + ".tmp"), self / name)

    def renew(self, number: int, version: int) -> str:
        """Puts another version of an object in place; gives its name."""
        self.put(self.names[number], numbered(number, version, len(self.names)))
        return self.names[number]

    def link(self, *words: str, names: list[str] | None = None) -> bytes:
        """The image that `ldi link` makes of the files."""
        command = [LDI, "link", "-T", "t.ld", "-o", ".linked", *words, *(names or self.names)]
        done = subprocess.run(command, cwd=self.path, capture_output=True, timeout=PATIENCE)
        assert done.returncode == 0, done
        return (self / ".linked").read_bytes()

    def image(self) -> bytes:
        """The image that is there."""
        return (self / "image").read_bytes()

    def left_over(self) -> list[str]:
        """The files that are half written images."""
        return [name for name in os.listdir(self.path) if name.endswith(".new")]

    def replace(self) -> None:
        """Puts a copy of the folder, without what is hidden in it, in its place."""
        old, new = (self.path.with_name(f"{self.path.name}.{what}") for what in ("old", "new"))
        shutil.copytree(self.path, new, copy_function=copied, ignore=shutil.ignore_patterns(".*"))
        os.rename(self.path, old)
        os.rename(new, self.path)
        shutil.rmtree(old)

    def remove(self) -> None:
        """Removes the folder."""
        shutil.rmtree(self.path, ignore_errors=True)


def copied(source: str, target: str) -> None:
    """Copies a file with its times, or makes a FIFO."""
    if Path(source).is_fifo():
        os.mkfifo(target)
    else:
        shutil.copy2(source, target)


def default_signals() -> None:
    """Makes signals end a process, as at a terminal, though the tests are run under nohup."""
    for number in (signal.SIGINT, signal.SIGTERM, signal.SIGHUP):
        signal.signal(number, signal.SIG_DFL)


class Watching:
    """A running `ldi-watch --json` over a folder; its objects are queued as they come."""

    def __init__(self, folder: Folder, *words: str, names: list[str] | None = None, **how: Any) -> None:
        names = folder.names if names is None else names
        how.setdefault("preexec_fn", default_signals)
        self.process = subprocess.Popen(
            [LDI_WATCH, "--json", "-T", "t.ld", "-o", "image", *names, *words],
            cwd=folder.path,
            stdout=subprocess.PIPE,
            stderr=subprocess.PIPE,
            text=True,
            **how,
        )
        self._queue: queue.Queue[dict[str, Any] | None] = queue.Queue()
        self.errors = ""
        self._threads = [threading.Thread(target=self._read_lines), threading.Thread(target=self._read_errors)]
        for thread in self._threads:
            thread.start()

    def _read_lines(self) -> None:
        assert self.process.stdout is not None
        for line in self.process.stdout:
            self._queue.put(json.loads(line))
        self._queue.put(None)

    def _read_errors(self) -> None:
        assert self.process.stderr is not None
        self.errors = self.process.stderr.read()

    def next(self, patience: float = PATIENCE) -> dict[str, Any]:
        """The next object."""
        found = self._queue.get(timeout=patience)
        assert found is not None, f"it has ended: {self.errors}"
        return found

    def up_to(self, event: str) -> list[dict[str, Any]]:
        """The next objects, up to one of this event."""
        found = [self.next()]
        while found[-1]["event"] != event:
            found.append(self.next())
        return found

    def wait_for(self, event: str) -> dict[str, Any]:
        """The next object of this event; others before it are passed over."""
        return self.up_to(event)[-1]

    def is_silent(self, seconds: float) -> bool:
        """Whether nothing comes for so long."""
        try:
            return self._queue.get(timeout=seconds) is None
        except queue.Empty:
            return True

    def children(self) -> list[int]:
        """The processes that it started, by their numbers."""
        pid = self.process.pid
        return [int(word) for word in Path(f"/proc/{pid}/task/{pid}/children").read_text().split()]

    def rests(self, seconds: float = 1.0) -> bool:
        """Waits until only the session has run for so long, and no command; says whether it came to that."""
        since = time.monotonic()

        def is_at_rest() -> bool:
            nonlocal since
            if len(self.children()) != 1:
                since = time.monotonic()
            return time.monotonic() > since + seconds

        return wait_until(is_at_rest)

    def session(self) -> int:
        """The session's process."""
        for child in self.children():
            if b"session" in Path(f"/proc/{child}/cmdline").read_bytes().split(b"\0"):
                return child
        raise AssertionError("there is no session")

    def end(self, number: signal.Signals = signal.SIGINT) -> int:
        """Ends it by a signal; gives its status."""
        if self.process.poll() is None:
            self.process.send_signal(number)
        return self.wait()

    def wait(self) -> int:
        """Waits for its end; gives its status."""
        try:
            status = self.process.wait(PATIENCE)
        except subprocess.TimeoutExpired:
            self.process.kill()
            status = self.process.wait()
        for thread in self._threads:
            thread.join(PATIENCE)
        for stream in (self.process.stdout, self.process.stderr):
            if stream is not None:
                stream.close()
        return status


def run_once(
    folder: Folder, *words: str, names: list[str] | None = None, **how: Any
) -> subprocess.CompletedProcess[str]:
    """Runs `ldi-watch --once` over the folder to its end."""
    names = folder.names if names is None else names
    command = [LDI_WATCH, "--once", "-T", "t.ld", "-o", "image", *names, *words]
    return subprocess.run(command, cwd=folder.path, capture_output=True, text=True, timeout=PATIENCE, **how)


def wait_until(holds: Callable[[], bool], patience: float = PATIENCE) -> bool:
    """Waits until something holds; says whether it came to that."""
    end = time.monotonic() + patience
    while not holds():
        if time.monotonic() > end:
            return False
        time.sleep(0.005)
    return True
