"""`ldi link` itself: what it does to an old image, and where a file cannot be written whole."""
from __future__ import annotations

import os
import resource
import signal
import subprocess
from functools import partial
from pathlib import Path

from tests.programs import LDI
from tests.linking import LIMIT, LinkTest
from tests.test_ld_link import PLAIN, WAITING


def greatest_file(size: int) -> None:
    """Lets this process write no file of more bytes, as on a disk that is full then."""
    signal.signal(signal.SIGXFSZ, signal.SIG_IGN)
    resource.setrlimit(resource.RLIMIT_FSIZE, (size, size))


class OldImageTest(LinkTest):
    """An image that is there already."""

    def setUp(self) -> None:
        """Compiles a program that waits for a byte."""
        super().setUp()
        self.write("t.ld", PLAIN)
        self.compile("wait.c", WAITING)
        self.words = [LDI, "link", "-T", "t.ld", "-o", "wait", "--Map", "wait.map", "wait.o"]
        self.image = self.folder / "wait"

    def names(self) -> set[str]:
        """The files of the folder."""
        return {path.name for path in self.folder.iterdir()}

    def test_program_that_runs(self) -> None:
        """A running program is linked anew, and goes on with the file that it began with."""
        self.run_tool(*self.words)
        old = os.stat(self.image).st_ino
        with subprocess.Popen([str(self.image)], stdin=subprocess.PIPE) as running:
            self.run_tool(*self.words)
            self.assertIsNone(running.poll())
            self.assertNotEqual(os.stat(self.image).st_ino, Path(f"/proc/{running.pid}/exe").stat().st_ino)
            self.assertEqual(Path(f"/proc/{running.pid}/exe").stat().st_ino, old)
            running.communicate(b"x", timeout=LIMIT)
        self.assertEqual(running.returncode, 0)

    def test_full_disk(self) -> None:
        """Where the map or the image does not fit, the status is 3, and the old ones stay whole."""
        self.run_tool(*self.words)
        size, text = self.image.stat().st_size, (self.folder / "wait.map").stat().st_size
        self.assertLess(text, size)
        before = {name: (self.folder / name).read_bytes() for name in ("wait", "wait.map")}
        names = self.names()
        for room in (text - 1, size - 1):
            done = subprocess.run(self.words, cwd=self.folder, capture_output=True, text=True, timeout=LIMIT,
                                  check=False, preexec_fn=partial(greatest_file, room))
            self.assertEqual(done.returncode, 3, done.stderr)
            self.assertEqual(self.names(), names)
            self.assertEqual({name: (self.folder / name).read_bytes() for name in before}, before)
