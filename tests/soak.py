"""A soak of `ldi-watch`: writers rewrite objects at random while a reader opens the image all the time.

    python3 -m tests.soak [ROUNDS [LIMIT [SEED]]]

In each round three writers, processes of their own, rewrite the objects of a small project: in place, by a rename, half
and then whole, bad ones and FIFOs among them. Between rounds the folder may be replaced by a copy, and in them the
session be stopped for a while. Where this runs as root another user puts FIFOs and links under the names beside the
image. Each text that they write has a version of its own, which stands in the object's
section `.numbers`, so that an image says itself which texts it was made of. Each writer notes from when to when a text
may have been on disk whole: from before its first byte could be seen there to after its last one could. Judged is:

- each image that was read is, byte for byte, `ldi link`'s of the texts that it names;
- these texts were on disk together: the latest beginning is before the earliest end, and before the image was read;
- after the writers rest, the image is `ldi link`'s of what is there, within LIMIT seconds (1);
- the image is this user's, and what the other user's links lead to stays as it was.

Prints the figures and ends with 0 where all of it holds. Beside the time of an image that is late stands for how long
the processes could run, and waited for a processor.
"""
from __future__ import annotations

import multiprocessing
import os
import random
import signal
import sys
import threading
import time
from dataclasses import dataclass, field
from multiprocessing.connection import Connection
from pathlib import Path

from tests.foreign_writer import ForeignWriter
from tests.serving import signal_to
from tests.watching import Folder, Watching, numbered, versions_in

COUNT = 6
WRITERS = 3
Life = tuple[float, float]


@dataclass
class Writer:
    """Rewrites its objects, and notes the lives of their texts."""

    folder: Path
    number: int
    chance: random.Random
    pace: float
    """The longest pause, in seconds."""
    version: int = 1
    born: dict[int, tuple[int, float]] = field(default_factory=dict)
    """Of each object the version that is on disk, and from when it may be."""
    lives: list[tuple[int, int, float, float]] = field(default_factory=list)

    def mine(self) -> list[int]:
        """The numbers of the objects that this writer writes."""
        return [number for number in range(COUNT) if number % WRITERS == self.number]

    def round(self) -> None:
        """Some rewrites; afterwards all objects are good."""
        spoiled: set[int] = set()
        for _ in range(self.chance.randrange(1, 4)):
            self._pause()
            number = self.chance.choice(self.mine())
            if self.chance.random() < 0.2:
                self._bad(number)
                spoiled.add(number)
            else:
                self._good(number)
                spoiled.discard(number)
        for number in spoiled:
            self._pause()
            self._good(number)

    def _good(self, number: int) -> None:
        self.version += 1
        data = numbered(number, self.version, COUNT)
        begins = time.monotonic()
        if self._path(number).is_fifo():
            self._by_rename(number, data)
        else:
            self.chance.choice((self._by_rename, self._in_place, self._in_halves, self._half_closed))(number, data)
        self._dead(number, time.monotonic())
        self.born[number] = (self.version, begins)

    def _bad(self, number: int) -> None:
        data = numbered(number, 0, COUNT)
        data = self.chance.choice((b"", b"no object", data[: self.chance.randrange(len(data))], b"\0" * 700))
        if self._path(number).is_fifo():
            self._gone(number, data)
        self.chance.choice((self._by_rename, self._in_place, self._gone, self._fifo))(number, data)
        self._dead(number, time.monotonic())

    def _dead(self, number: int, now: float) -> None:
        """The text that was there cannot be seen from now on."""
        if number in self.born:
            version, begins = self.born.pop(number)
            self.lives.append((number, version, begins, now))

    def _path(self, number: int) -> Path:
        return self.folder / f"o{number}.o"

    def _by_rename(self, number: int, data: bytes) -> None:
        beside = self.folder / f"w{self.number}.tmp"
        beside.write_bytes(data)
        os.rename(beside, self._path(number))

    def _in_place(self, number: int, data: bytes) -> None:
        self._path(number).write_bytes(data)

    def _in_halves(self, number: int, data: bytes) -> None:
        path = self._path(number)
        over = path.exists() and self.chance.random() < 0.5
        cut = self.chance.choice((self.chance.randrange(len(data)), self.chance.randrange(72, 112)))
        with open(path, "r+b" if over else "wb", buffering=0) as file:
            file.write(data[:cut])
            self._pause()
            file.write(data[cut:])
            file.truncate(len(data))

    def _half_closed(self, number: int, data: bytes) -> None:
        self._path(number).write_bytes(data[: len(data) // 2])
        self._pause()
        with open(self._path(number), "ab") as file:
            file.write(data[len(data) // 2 :])

    def _gone(self, number: int, data: bytes) -> None:
        self._path(number).unlink(missing_ok=True)

    def _fifo(self, number: int, data: bytes) -> None:
        self._gone(number, data)
        os.mkfifo(self._path(number))

    def _pause(self) -> None:
        time.sleep(self.chance.choice((0.0, self.pace * self.chance.random(), self.pace)))


def write(folder: Path, number: int, seed: int, pace: float, orders: Connection) -> None:
    """A writer's process: a round for each order, answered by the lives that ended in it."""
    writer = Writer(folder, number, random.Random(seed * WRITERS + number), pace)
    writer.born = {mine: (1, 0.0) for mine in writer.mine()}
    while orders.recv():
        writer.lives = []
        writer.round()
        orders.send((writer.lives, dict(writer.born)))


@dataclass
class Reader:
    """Opens the image all the time, and notes what it saw and when."""

    image: Path
    seen: dict[bytes, float] = field(default_factory=dict)
    """The images that were new, and when each was first seen."""
    opened: int = 0
    last: bytes = b""
    since: float = 0.0
    """When the last image that was seen was there for the first time since it was another."""

    def look(self) -> None:
        """Opens the image once."""
        try:
            data = self.image.read_bytes()
        except FileNotFoundError:  # as the folder is replaced
            return
        self.opened += 1
        if data != self.last:
            self.last, self.since = data, time.monotonic()
            self.seen.setdefault(data, self.since)


def read(image: Path, orders: Connection) -> None:
    """The reader's process: answers an order with what it saw since the one before."""
    reader = Reader(image)
    while True:
        reader.look()
        time.sleep(0.0005)
        if orders.poll():
            if not orders.recv():
                return
            reader.look()
            orders.send((reader.seen, reader.opened, reader.since))
            reader.seen, reader.opened = {}, 0


class Waits:
    """For how long the processes of a watch, and this one, ran and waited for a processor, as the system says."""

    def __init__(self, watching: Watching) -> None:
        self._watching = watching
        self._begun: dict[str, tuple[int, int]] = {}

    def begin(self) -> None:
        """Counts from now on."""
        self._begun = self._now()

    def said(self) -> str:
        """The times since `begin`."""
        parts = []
        for name, (ran, waited) in self._now().items():
            ran_before, waited_before = self._begun.get(name, (0, 0))
            parts.append(f"{name} ran {(ran - ran_before) / 1e9:.2f} s, waited {(waited - waited_before) / 1e9:.2f} s")
        return "; ".join(parts)

    def _now(self) -> dict[str, tuple[int, int]]:
        try:
            pids = {"ldi-watch": self._watching.process.pid, "the session": self._watching.session()}
        except (AssertionError, OSError):
            pids = {"ldi-watch": self._watching.process.pid}
        return {name: times_of(pid) for name, pid in {**pids, "the judge": os.getpid()}.items()}


def times_of(pid: int) -> tuple[int, int]:
    """The nanoseconds for which a process's threads ran, and waited for a processor."""
    ran = waited = 0
    for file in Path(f"/proc/{pid}/task").glob("*/schedstat"):
        try:
            words = file.read_text().split()
        except OSError:
            continue  # a thread that has ended
        ran, waited = ran + int(words[0]), waited + int(words[1])
    return ran, waited


@dataclass
class Soak:
    """The project, its watch and the processes around it, and what was found."""

    limit: float
    seed: int
    pace: float
    folder: Folder = field(default_factory=lambda: Folder(COUNT))
    texts: Folder = field(default_factory=lambda: Folder(COUNT))
    """Another folder, to link the texts of an image in."""
    lives: dict[tuple[int, int], Life] = field(default_factory=dict)
    images: int = 0
    opened: int = 0
    times: list[float] = field(default_factory=list)
    """Of each round, after how many seconds of rest the reader saw the image of the files for good."""
    wrong: list[str] = field(default_factory=list)

    replaced: int = 0
    stopped: int = 0

    def run(self, rounds: int) -> None:
        """So many rounds."""
        self.chance = random.Random(self.seed)
        self.foreign = ForeignWriter(self.folder.path) if os.getuid() == 0 else None
        watching = Watching(self.folder)
        processes, ends = [], []
        self.waits = Waits(watching)
        try:
            watching.wait_for("linked")
            for number in range(WRITERS + 1):
                end, other = multiprocessing.Pipe()
                processes.append(self._process(number, other))
                processes[-1].start()
                ends.append(end)
            for number in range(rounds):
                if self.chance.random() < 0.03:
                    self._replace(watching)
                stops = self._stop(watching) if self.chance.random() < 0.05 else None
                self._round(number, ends[:-1], ends[-1])
                if stops is not None:
                    stops.join()
                if self.foreign is not None:
                    self.wrong += [f"round {number}: {line}" for line in self.foreign.found(self.folder / "image")]
        finally:
            if self.foreign is not None:
                self.foreign.end()
            for end in ends:
                end.send(False)
            for process in processes:
                process.join(10)
                process.kill()
            if watching.end() != 0 or watching.errors:
                self.wrong.append(f"ldi-watch ended badly: {watching.errors}")

    def _replace(self, watching: Watching) -> None:
        """Puts a copy of the folder in its place, and waits until the watch has said so."""
        self.replaced += 1
        if self.foreign is not None:
            self.foreign.rest()
        self.folder.replace()
        while "another folder" not in str(watching.next()):
            pass
        if self.foreign is not None:
            self.foreign.watch(self.folder.path)

    def _stop(self, watching: Watching) -> threading.Thread:
        """Stops the session for a while."""
        self.stopped += 1
        session, waits = watching.session(), [self.chance.random() * 0.3 for _ in range(2)]

        def stop() -> None:
            for number, wait in zip((signal.SIGSTOP, signal.SIGCONT), waits):
                time.sleep(wait)
                signal_to(session, number)

        thread = threading.Thread(target=stop)
        thread.start()
        return thread

    def _process(self, number: int, orders: Connection) -> multiprocessing.Process:
        """A writer, or after them the reader."""
        if number < WRITERS:
            words = (self.folder.path, number, self.seed, self.pace, orders)
            return multiprocessing.Process(target=write, args=words, daemon=True)
        return multiprocessing.Process(target=read, args=(self.folder / "image", orders), daemon=True)

    def _round(self, number: int, writers: list[Connection], reader: Connection) -> None:
        for writer in writers:
            writer.send(True)
        standing: dict[tuple[int, int], Life] = {}
        for writer in writers:
            ended, born = writer.recv()
            self.lives.update({(which, version): (begins, ends) for which, version, begins, ends in ended})
            standing.update({(which, version): (begins, float("inf")) for which, (version, begins) in born.items()})
        rest = time.monotonic()
        self.waits.begin()
        self.lives.update(standing)
        expected = self._settles(rest)
        waits = self.waits.said()
        reader.send(True)
        seen, opened, since = reader.recv()
        self._time(number, max(0.0, since - rest), waits)
        self.opened += opened
        for image, when in seen.items():
            self._judge(number, image, when, expected)
        self.lives = standing  # what ended before is in no image that is still to come

    def _settles(self, rest: float) -> bytes:
        """Waits until the image is that of what is there, and gives that image; the judging says if it is not."""
        expected = self.folder.link()
        while self.folder.image() != expected and time.monotonic() < rest + 10 * self.limit:
            time.sleep(0.002)
        if self.folder.image() != expected:
            self.wrong.append(f"the image is not that of the files after {10 * self.limit:g} s")
        return expected

    def _time(self, number: int, took: float, waits: str) -> None:
        """Notes after how many seconds of rest the image became the one that stands."""
        self.times.append(took)
        if took > self.limit:
            text = f"round {number}: the image is that of the files after {took:.2f} s, not {self.limit:g}"
            self.wrong.append(f"{text}; {waits}")

    def _judge(self, number: int, image: bytes, when: float, expected: bytes) -> None:
        """The image is `ldi link`'s of the texts that it names, and these were on disk together."""
        self.images += 1
        versions = versions_in(image, COUNT)
        lives = [self.lives.get((which, version)) for which, version in enumerate(versions)]
        if None in lives:
            self.wrong.append(f"round {number}: an image of texts that were not there: {versions}")
            return
        begins = max(life[0] for life in lives if life)
        ends = min(life[1] for life in lives if life)
        if begins > ends or begins > when:
            self.wrong.append(f"round {number}: an image of texts that were not there together: {versions}")
        if image == expected:
            return  # by `ldi link`, of the texts that are there at the round's end
        for which, version in enumerate(versions):
            (self.texts / f"o{which}.o").write_bytes(numbered(which, version, COUNT))
        if self.texts.link() != image:
            self.wrong.append(f"round {number}: an image that is not `ldi link`'s of its texts: {versions}")

    def remove(self) -> None:
        """Removes the folders."""
        self.folder.remove()
        self.texts.remove()


def soak(rounds: int, limit: float = 1.0, seed: int = 1, pace: float = 0.15) -> Soak:
    """So many rounds, judged."""
    one = Soak(limit, seed, pace)
    try:
        one.run(rounds)
    finally:
        one.remove()
    return one


def main(words: list[str]) -> int:
    """Runs a soak by the words; gives the exit status."""
    rounds = int(words[0]) if words else 2000
    limit = float(words[1]) if len(words) > 1 else 1.0
    started = time.monotonic()
    done = soak(rounds, limit, int(words[2]) if len(words) > 2 else 1)
    print(f"{rounds} rounds in {time.monotonic() - started:.0f} s: the image was opened {done.opened} times, "
          f"{done.images} images were judged; the folder was replaced {done.replaced} times, the session stopped "
          f"{done.stopped} times")
    times = sorted(done.times)
    if times:
        print(f"at rest it was that of the files after {times[len(times) // 2]:.3f} s at the median, "
              f"{times[len(times) * 99 // 100]:.3f} s in 99 of 100 rounds, {times[-1]:.3f} s at most")
    for line in done.wrong[:20]:
        print(line)
    print(f"{len(done.wrong)} wrong")
    return 1 if done.wrong else 0


if __name__ == "__main__":
    sys.exit(main(sys.argv[1:]))
