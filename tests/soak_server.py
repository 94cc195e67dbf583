"""A soak of `ld.ldi`'s server: random edits, each followed by a call, whose image is that of `ldi link`.

    python3 -m tests.soak_server [ROUNDS [SEED]]

In each round some objects of a small project are rewritten at random: in place, by a rename, in halves, several times
within a tick of the system; bad ones among them, or none at all. Some are members of an archive, which `ar` makes anew;
the order of the objects, the script and --defsym change too. An object may become a FIFO, and the whole folder be
replaced by a copy. Servers and their sessions are killed and stopped at random, for a while or for good, between calls
and in them; some objects change while a call links; some calls are held up before they put the image in place (by
`strace`, where it is there), while others are made. Where this runs as root another user puts FIFOs and links under the
names that he sees beside the image, and under those that he expects. Judged is:

- where the files are good, the call's status is 0, and what is loaded of the image, its segments, its entry and the
  values of its global symbols are those of `ldi link`'s image of what was there: of an object that changed meanwhile,
  what was there before or after;
- where one is bad the status is another, and the old image stays;
- the image of a call that was held up is never put over that of a later one;
- the image is this user's, and what the other user's links lead to stays as it was;
- nothing is left beside the image, and no server at the end.

Prints the figures and ends with 0 where all of it holds.
"""
from __future__ import annotations

import os
import random
import re
import shutil
import signal
import struct
import subprocess
import sys
import tempfile
import threading
import time
from dataclasses import dataclass, field
from pathlib import Path

from tests.images import Image, read_image
from tests.linking import LIMIT
from tests.programs import LD_LDI
from tests.serving import has_variable, is_running, session_of, signal_to
from tests.foreign_writer import ForeignWriter
from tests.watching import SCRIPT, Folder, numbered

NO_IMAGE = Image(-1, [], [], {})
"""What no file says."""
COUNT = 6
IN_ARCHIVE = 2
"""The last objects, which are members of an archive."""
HOLDS_UP = ("strace", "-qq", "-o", "/dev/null", "-e", "trace=/^rename", "-e")
"""What runs a call so that it waits before each rename, with the words of how long."""


def said_by(data: bytes) -> Image:
    """What an image says; one that is torn says something else."""
    try:
        return read_image(data)
    except (struct.error, IndexError, ValueError):
        return Image(-2, [], [], {})


@dataclass
class Soak:
    """The project, and what was found."""

    seed: int
    folder: Folder = field(default_factory=lambda: Folder(COUNT))
    runtime: Path = field(default_factory=lambda: Path(tempfile.mkdtemp(prefix="ldi-soak-")))
    version: int = 1
    bad: set[int] = field(default_factory=set)
    order: list[int] = field(default_factory=lambda: list(range(COUNT - IN_ARCHIVE)))
    start: int = 0x401000
    defsym: int | None = None
    killed: int = 0
    times: list[float] = field(default_factory=list)
    servers: set[int] = field(default_factory=set)
    wrong: list[str] = field(default_factory=list)
    held_up: int = 0
    replaced: int = 0
    foreign: ForeignWriter | None = None
    stopped: list[threading.Timer] = field(default_factory=list)
    """What lets processes go on that were stopped."""

    def __post_init__(self) -> None:
        self.chance = random.Random(self.seed)
        self.env = {**os.environ, "XDG_RUNTIME_DIR": str(self.runtime), "LDI_SERVER": "1", "LDI_FALLBACK": "none"}
        self._archive()
        tried = [*HOLDS_UP, "inject=/^rename:delay_enter=1", "true"]
        self.holds_up = shutil.which("strace") is not None and subprocess.run(
            tried, stderr=subprocess.DEVNULL, check=False).returncode == 0
        if os.getuid() == 0:
            self.foreign = ForeignWriter(self.folder.path)

    # edits

    def _edit(self) -> None:
        """One change."""
        what = self.chance.random()
        if what < 0.7:
            self._rewrite(self.chance.randrange(COUNT))
        elif what < 0.8:
            self.chance.shuffle(self.order)
        elif what < 0.88:
            self.start = self.chance.choice((0x401000, 0x501000, 0x402000))
            (self.folder / "t.ld").write_bytes(SCRIPT.replace(b"0x401000", b"%#x" % self.start))
        elif what < 0.93:
            self.defsym = self.chance.choice((None, 1, 2))
        elif what < 0.96:
            self._replace_folder()
        else:
            for name in self.folder.names:
                os.utime(self.folder / name) if (self.folder / name).exists() else None

    def _rewrite(self, number: int) -> None:
        self.version += 1
        data: bytes | None = numbered(number, self.version, COUNT)
        self.bad.discard(number)
        if self.chance.random() < 0.15:
            self.bad.add(number)
            short = numbered(number, 0, COUNT)[: self.chance.randrange(64)]
            data = self.chance.choice((b"no object", short, b"\0" * 700, None))
        path = self.folder / self.folder.names[number]
        if path.is_fifo():
            path.unlink()
        if number in self.bad and number < COUNT - IN_ARCHIVE and self.chance.random() < 0.1:
            path.unlink(missing_ok=True)
            os.mkfifo(path)
            return
        self._write(path, data)
        if number >= COUNT - IN_ARCHIVE:
            self._archive()

    def _write(self, path: Path, data: bytes | None) -> None:
        way = self.chance.randrange(4)
        if data is None:
            path.unlink(missing_ok=True)
        elif way == 0 or not path.exists():
            self.folder.put(path.name, data)
        elif way == 1:
            path.write_bytes(data)
        else:
            cut = self.chance.randrange(len(data) + 1)
            with open(path, "r+b" if way == 2 else "wb", buffering=0) as file:
                file.write(data[:cut])
                file.write(data[cut:])
                file.truncate(len(data))

    def _replace_folder(self) -> None:
        """Puts a copy of the folder in its place."""
        self.replaced += 1
        if self.foreign is not None:
            self.foreign.rest()
        self.folder.replace()
        if self.foreign is not None:
            self.foreign.watch(self.folder.path)

    def _archive(self) -> None:
        """Makes the archive of those members that are there."""
        (self.folder / "lib.a").unlink(missing_ok=True)
        names = [name for name in self.folder.names[COUNT - IN_ARCHIVE:] if (self.folder / name).exists()]
        subprocess.run(["ar", "rcS", "lib.a", *names], cwd=self.folder.path, check=True, stderr=subprocess.DEVNULL)

    # what is expected

    def _names(self) -> list[str]:
        return [self.folder.names[number] for number in self.order]

    def _expected(self) -> Image:
        names = [*self._names(), *self.folder.names[COUNT - IN_ARCHIVE:]]
        script = b"" if self.defsym is None else b"defined = %d; " % self.defsym
        (self.folder / "expected.ld").write_bytes(script + (self.folder / "t.ld").read_bytes())
        command = [os.environ["LDI"], "link", "-T", "expected.ld", "-o", ".linked", *names]
        done = subprocess.run(command, cwd=self.folder.path, capture_output=True, timeout=LIMIT, check=False)
        if done.returncode != 0:
            return NO_IMAGE
        # Program headers are `ld.ldi`'s own: they are those of a call without a server.
        command = [LD_LDI, "--no-server", "-T", "expected.ld", "-o", ".alone", *names]
        subprocess.run(command, cwd=self.folder.path, env=self.env, capture_output=True, timeout=LIMIT, check=True)
        alone = said_by((self.folder / ".alone").read_bytes())
        return said_by((self.folder / ".linked").read_bytes())._replace(segments=alone.segments)

    def _call(self, *before: str) -> subprocess.Popen[str]:
        words = [] if self.defsym is None else [f"--defsym=defined={self.defsym}"]
        words += ["-T", "t.ld", "-o", "image", *self._names(), "--whole-archive", "lib.a"]
        return subprocess.Popen([*before, LD_LDI, *words], cwd=self.folder.path, env=self.env, text=True,
                                stdin=subprocess.DEVNULL, stdout=subprocess.PIPE, stderr=subprocess.PIPE)

    # rounds

    def run(self, rounds: int) -> None:
        """So many rounds."""
        for number in range(rounds):
            for _ in range(self.chance.choice((0, 1, 1, 1, 2, 3))):
                self._edit()
            self._disturb()
            self._round(number)
            for which in [bad for bad in self.bad if (self.folder / self.folder.names[bad]).is_fifo()]:
                self._rewrite(which)  # each call waits for its writer
            if self.holds_up and not self.bad and self.chance.random() < 0.04:
                self._hold_up(number)
            if self.foreign is not None:
                self.wrong += [f"round {number}: {line}" for line in self.foreign.found(self.folder / "image")]
        self._end()

    def _hold_up(self, number: int) -> None:
        """A call of a server waits before it puts its image in place, while another one is made with other objects."""
        self.env["LDI_SERVER_ANSWER"] = "10"
        self._call().communicate(timeout=LIMIT)
        if self._running():
            self._hold_up_call(number)
        del self.env["LDI_SERVER_ANSWER"]

    def _hold_up_call(self, number: int) -> None:
        self.held_up += 1
        seconds = self.chance.choice((0.3, 1.0, 2.0, 12.0) if self.chance.random() < 0.2 else (0.3, 1.0))
        held = self._call(*HOLDS_UP, f"inject=/^rename:delay_enter={int(seconds * 1e6)}")
        time.sleep(self.chance.random() * 2 * seconds)
        which = self.chance.choice(self.order)
        self.version += 1
        self.folder.put(self.folder.names[which], numbered(which, self.version, COUNT))
        expected = self._expected()
        for call in (self._call(), held):
            out, errors = call.communicate(timeout=LIMIT)
            if call.returncode != 0 or said_by((self.folder / "image").read_bytes()) != expected:
                what = "that was held up" if call is held else "beside one that was held up"
                self.wrong.append(f"round {number}: a call {what} for {seconds} s: {call.returncode}, {out}{errors}")

    def _round(self, number: int) -> None:
        """A call, judged."""
        before = (self.folder / "image").read_bytes() if (self.folder / "image").exists() else None
        good = [self._expected()] if not self.bad else []
        begun = time.monotonic()
        call = self._call()
        in_call = self._disturb_call()
        if good and self.chance.random() < 0.15:
            good.append(self._changed_meanwhile())
        out, errors = call.communicate(timeout=LIMIT)
        if in_call is not None:
            in_call.join()
        self.times.append(time.monotonic() - begun)
        image = (self.folder / "image").read_bytes() if (self.folder / "image").exists() else None
        is_good = image is not None and said_by(image) in good
        if good and (call.returncode != 0 or not is_good):
            self.wrong.append(f"round {number}: status {call.returncode}, {out}{errors}"
                              f"{'' if is_good else 'an image of other files'}")
        elif not good and (call.returncode == 0 or image != before):
            self.wrong.append(f"round {number}: status {call.returncode} of bad files, {out}{errors}")

    def _changed_meanwhile(self) -> Image:
        """Changes an object by a rename while the call links; gives the image with it."""
        number = self.chance.choice(self.order)
        time.sleep(self.chance.random() * 0.05)
        self.version += 1
        self.folder.put(self.folder.names[number], numbered(number, self.version, COUNT))
        return self._expected()

    # servers that are killed

    def _running(self) -> list[int]:
        said = subprocess.run([LD_LDI, "--server-status"], env=self.env, capture_output=True, text=True, check=False)
        found = [int(pid) for pid in re.findall(r": process (\d+) in", said.stdout)]
        self.servers.update(found)
        return found

    def _disturb(self) -> None:
        """Kills or stops the server or its session between two calls, sometimes."""
        if self.chance.random() > 0.12:
            return
        for pid in self._running():
            self._hit(pid)

    def _hit(self, pid: int) -> None:
        try:
            session = session_of(pid)
        except (AssertionError, OSError):
            return
        if not self._is_own(pid) or not self._is_own(session):
            return
        self.killed += 1
        target, number = self.chance.choice(((pid, signal.SIGKILL), (pid, signal.SIGTERM), (session, signal.SIGKILL),
                                             (pid, signal.SIGSTOP), (session, signal.SIGSTOP)))
        signal_to(target, number)
        if number == signal.SIGSTOP:
            is_long = target == session and self.chance.random() < 0.3
            later = threading.Timer(20 if is_long else self.chance.random(), self._goes_on, (target,))
            later.daemon = True
            later.start()
            self.stopped.append(later)

    def _goes_on(self, pid: int) -> None:
        if self._is_own(pid):
            signal_to(pid, signal.SIGCONT)

    def _disturb_call(self) -> threading.Thread | None:
        """The same while a call is made, sometimes."""
        if self.chance.random() > 0.1:
            return None
        found = [pid for pid in sorted(self.servers) if self._is_own(pid)]
        wait = self.chance.random() * 0.06

        def hit() -> None:
            time.sleep(wait)
            for pid in found:
                self._hit(pid)

        thread = threading.Thread(target=hit, daemon=True)
        thread.start()
        return thread

    def _is_own(self, pid: int) -> bool:
        """Whether a process is of this soak, and not another one that has its number now."""
        return is_running(pid) and has_variable(pid, "XDG_RUNTIME_DIR", str(self.runtime))

    def _end(self) -> None:
        """Ends the servers; nothing is left."""
        for pid in self._running():
            signal_to(pid, signal.SIGCONT)
            signal_to(pid, signal.SIGTERM)
        end = time.monotonic() + 20
        while any(map(self._is_own, self.servers)) and time.monotonic() < end:
            time.sleep(0.05)
        if any(map(self._is_own, self.servers)):
            self.wrong.append("a server is left")
        left = [name for name in self.folder.left_over() if is_running(int(name.rsplit(".", 3)[1]))
                and not (self.foreign and self.foreign.is_his(self.folder / name))]
        if left:
            self.wrong.append(f"left beside the image: {left}")

    def remove(self) -> None:
        """Removes the folders."""
        for later in self.stopped:
            if later.is_alive():
                later.cancel()
                later.function(*later.args)
        if self.foreign is not None:
            self.foreign.end()
        for pid in filter(self._is_own, self.servers):
            signal_to(pid, signal.SIGKILL)
        self.folder.remove()
        shutil.rmtree(self.runtime, ignore_errors=True)


def soak(rounds: int, seed: int = 1) -> Soak:
    """So many rounds, judged."""
    one = Soak(seed)
    try:
        one.run(rounds)
    finally:
        one.remove()
    return one


def main(words: list[str]) -> int:
    """Runs a soak by the words; gives the exit status."""
    rounds = int(words[0]) if words else 500
    started = time.monotonic()
    done = soak(rounds, int(words[1]) if len(words) > 1 else 1)
    times = sorted(done.times)
    print(f"{rounds} calls in {time.monotonic() - started:.0f} s: {times[len(times) // 2]:.3f} s at the median, "
          f"{times[-1]:.3f} s at most; {done.killed} servers and sessions were killed or stopped, {done.held_up} calls "
          f"held up, {done.replaced} folders replaced")
    for line in done.wrong[:20]:
        print(line)
    print(f"{len(done.wrong)} wrong")
    return 1 if done.wrong else 0


if __name__ == "__main__":
    sys.exit(main(sys.argv[1:]))
