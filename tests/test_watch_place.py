"""`ldi-watch` in a working folder whose name another one gets, and signals that come early."""
from __future__ import annotations

import os
import shutil
import signal
import subprocess
import threading
import time
from pathlib import Path

from tests.programs import LDI_WATCH, LIMIT, WORDS, ProjectTest, end


class WatchTest(ProjectTest):
    """Runs of `ldi-watch`."""

    def watch(self, *words: str) -> subprocess.Popen[str]:
        """Starts it in the project."""
        process = subprocess.Popen([LDI_WATCH, *(words or WORDS)], cwd=self.folder / "p", env=self.env(), text=True,
                                   errors="replace", stdin=subprocess.DEVNULL, stdout=subprocess.PIPE,
                                   stderr=subprocess.STDOUT)
        self.addCleanup(end, process)
        return process


class PlaceTest(WatchTest):
    """The working folder."""

    def setUp(self) -> None:
        """Starts a watch, which has a good image."""
        super().setUp()
        self.watched = self.watch()
        self.said: list[str] = []
        assert self.watched.stdout is not None
        threading.Thread(target=lambda: self.said.extend(self.watched.stdout or ()), daemon=True).start()
        self.wait(lambda: self.number() == 1, "there is no image")

    def replace(self) -> None:
        """Renames the folder, and makes it anew."""
        os.rename(self.folder / "p", self.folder / "p.old")
        shutil.copytree(self.folder / "p.old", self.folder / "p", ignore=shutil.ignore_patterns("image"))

    def test_renamed_and_made_anew(self) -> None:
        """It says so, and goes on in the new one, and there alone."""
        self.replace()
        self.put("p/b.o", 2)
        self.wait(lambda: self.number() == 2, "the image of the new folder is not written")
        self.wait(lambda: any("another folder" in line for line in self.said), "it is not said")
        self.put("p.old/b.o", 3)
        self.put("p/b.o", 4)
        self.wait(lambda: self.number() == 4, "it does not go on in the new folder")
        self.assertEqual(self.number("p.old/image"), 1)

    def test_changed_at_once(self) -> None:
        """The new folder has other files from the beginning, and nothing changes later."""
        self.make("q", 5)
        os.rename(self.folder / "p", self.folder / "p.old")
        os.rename(self.folder / "q", self.folder / "p")
        self.wait(lambda: self.number() == 5, "the image of the new folder is not written")
        self.assertEqual(self.number("p.old/image"), 1)

    def test_renamed_alone(self) -> None:
        """It goes on where it is while there is no other; when the old folder is back, nothing is said."""
        os.rename(self.folder / "p", self.folder / "p.old")
        self.put("p.old/b.o", 6)
        self.wait(lambda: self.number("p.old/image") == 6, "it does not go on in the folder")
        os.rename(self.folder / "p.old", self.folder / "p")
        self.put("p/b.o", 7)
        self.wait(lambda: self.number() == 7, "it does not go on in the folder")
        self.assertFalse(any("another folder" in line for line in self.said))


class FifoTest(WatchTest):
    """An input that becomes a FIFO."""

    def test_object(self) -> None:
        """It is not opened, the image stays, and the object that comes later is linked."""
        self.watch()
        self.wait(lambda: self.number() == 1, "there is no image")
        path = self.folder / "p" / "b.o"
        path.unlink()
        os.mkfifo(path)
        writer = self.begin("sh", "-c", "exec sleep 100 > b.o")
        time.sleep(2.5)
        self.assertEqual(Path(f"/proc/{writer.pid}/comm").read_text(encoding="utf-8"), "sh\n", "the FIFO was opened")
        self.assertEqual(self.number(), 1)
        self.put("p/b.o", 2)
        self.wait(lambda: self.number() == 2, "the object is not linked")


class SignalTest(WatchTest):
    """Signals."""

    def test_name(self) -> None:
        """It is found by its name, as by `pkill`."""
        process = self.watch()
        self.wait(lambda: self.number() == 1, "there is no image")
        self.assertEqual(Path(f"/proc/{process.pid}/comm").read_text(encoding="utf-8"), "ldi-watch\n")

    def test_early(self) -> None:
        """A signal ends it whenever it comes, without a traceback."""
        begun = time.monotonic()
        # What is ignored when it starts stays so, as SIGHUP under nohup, and SIGINT of what a shell has in the
        # background.
        numbers = [number for number in (signal.SIGINT, signal.SIGTERM, signal.SIGHUP)
                   if signal.getsignal(number) is not signal.SIG_IGN]
        for step in range(400):
            process = self.watch()
            number = numbers[step % len(numbers)]
            time.sleep((step % 80) * 0.0025)
            process.send_signal(number)
            said = process.communicate(timeout=LIMIT)[0]
            self.assertNotIn("Traceback", said, f"{number.name} after {(step % 80) * 2.5} ms")
            self.assertIn(process.returncode, (0, -number, 128 + number), said)
            if time.monotonic() - begun > 12:
                return
