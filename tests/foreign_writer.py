"""Another user of a folder, for the soaks: puts FIFOs and links under the names beside an image."""
from __future__ import annotations

import os
import signal
import stat
import time
from pathlib import Path

NOBODY = 65534
AHEAD = 5
"""So many of the numbers that may come for each that was seen."""


class ForeignWriter:
    """A process of another user, who may write in the folder as in /tmp, and what he is to leave as it is."""

    def __init__(self, folder: Path) -> None:
        """Starts it; only root can."""
        self._own = folder.with_name(folder.name + ".own")
        self._own.write_bytes(b"what is mine")
        self._own.chmod(0o666)  # else the system refuses hard links to it
        self._pid = 0
        self.watch(folder)

    def watch(self, folder: Path) -> None:
        """Works in this folder from now on."""
        self.rest()
        folder.chmod(0o1777)
        self._pid = os.fork()
        if self._pid == 0:
            try:
                os.setgroups([])
                os.setgid(NOBODY)
                os.setuid(NOBODY)
                self._work(folder)
            finally:
                os._exit(0)

    def _work(self, folder: Path) -> None:
        """Puts something under each name beside an image, as soon as it is free, and under those that may follow."""
        seen: set[str] = set()
        while os.getppid() != 1:
            seen.update(name for name in os.listdir(folder) if name.startswith(".image") and name.endswith(".new"))
            for at, name in enumerate(sorted(seen)[-50:]):
                front, pid, number, end = name.rsplit(".", 3)
                names = [name] + [f"{front}.{int(pid) + ahead}.{number}.{end}" for ahead in range(AHEAD)]
                for one in names + [f"{front}.{pid}.{ahead}.{end}" for ahead in range(AHEAD)]:
                    self._put(folder / one, at % 3)
            time.sleep(0.005)

    def _put(self, path: Path, kind: int) -> None:
        try:
            if kind == 0:
                os.mkfifo(path, 0o666)
            elif kind == 1:
                os.symlink(self._own, path)
            else:
                os.link(self._own, path)
        except OSError:
            pass  # it is there, or the system refuses it

    def found(self, image: Path) -> list[str]:
        """What he has come to."""
        wrong = [] if self._own.read_bytes() == b"what is mine" else ["a file that another's link leads to is lost"]
        try:
            status = os.lstat(image)
        except FileNotFoundError:
            return wrong
        if not stat.S_ISREG(status.st_mode) or status.st_uid != os.getuid() or status.st_nlink > 1:
            wrong.append(f"the image is another user's: {status}")
        return wrong

    def is_his(self, path: Path) -> bool:
        """Whether a file is his."""
        return os.lstat(path).st_uid == NOBODY or os.path.samefile(path, self._own)

    def rest(self) -> None:
        """Ends the process."""
        if self._pid:
            os.kill(self._pid, signal.SIGKILL)
            os.waitpid(self._pid, 0)
            self._pid = 0

    def end(self) -> None:
        """Ends the process, and removes what it was not to change."""
        self.rest()
        self._own.unlink(missing_ok=True)
