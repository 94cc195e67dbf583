"""New files beside their places, in folders that others may write, and calls that are held up before they place one."""
from __future__ import annotations

import os
import re
import stat
import subprocess
import threading
import time
import unittest
from pathlib import Path

from tests.programs import LD_LDI, LIMIT, WORDS, ProjectTest, needs, needs_root

RENAMES = "inject=/^rename:delay_enter={}:when=1"
NOBODY = 65534


def made(trace: str, folder: Path) -> list[tuple[str, str]]:
    """The names and flags of the files that were made in a folder, as `strace` shows it: those of new files that were
    made without a name too, when they get one, which is never another file's."""
    calls = re.findall(r'open(?:at)?\((?:AT_FDCWD, |\d+, )?"([^"]*)", ([A-Z_|0-9]+)', trace)
    named = re.findall(r'linkat\((?:AT_FDCWD, |\d+, )?"[^"]*", (?:AT_FDCWD, |\d+, )?"([^"]*)"', trace)
    calls += [(name, "O_CREAT|O_EXCL") for name in named]
    return [(name, flags) for name, flags in calls
            if "O_CREAT" in flags and (not name.startswith("/") or name.startswith(f"{folder}/"))]


def are_traced(pid: int) -> bool:
    """Whether all threads of a process are traced."""
    threads = Path(f"/proc/{pid}/task").iterdir()
    return not any("\nTracerPid:\t0\n" in (thread / "status").read_text(encoding="utf-8") for thread in threads)


@needs("strace")
class TracedTest(ProjectTest):
    """Tests by `strace`."""

    def traced(self, pid: int | None, *words: str) -> list[tuple[str, str]]:
        """What a process makes in the folder in a call, or what a program with these words makes there."""
        trace = self.folder / "trace"
        trace.unlink(missing_ok=True)
        command = ["strace", "-f", "-qq", "-e", "trace=open,openat,creat,linkat", "-s", "4000", "-o", str(trace)]
        if pid is None:
            done = self.run_program(*command, *words, cwd="p")
            self.skip_without_tracing(done.stderr)
            self.assertEqual(done.returncode, 0, done.stderr)
        else:
            tracer = self.begin(*command, "-p", str(pid))
            self.wait(lambda: are_traced(pid) or tracer.poll() is not None, "nothing is traced")
            if tracer.poll() is not None:
                self.skip_without_tracing(tracer.communicate()[1])
            self.call()
            tracer.terminate()
            tracer.communicate(timeout=LIMIT)
        return made(trace.read_text(errors="replace"), self.folder / "p")

    def skip_without_tracing(self, errors: str) -> None:
        """Skips the test where processes may not be traced."""
        if re.search(r"ptrace|PTRACE|Operation not permitted", errors):
            raise unittest.SkipTest(f"no process may be traced: {errors.strip()[:200]}")

    def assert_new(self, *seen: list[tuple[str, str]]) -> None:
        """Each file beside was made by a name that was not there, and no name is used twice."""
        for one in seen:
            self.assertTrue(one, "no file was made beside the image")
            self.assertEqual([flags for _, flags in one if "O_EXCL" not in flags], [])
        names = [name for one in seen for name, _ in one]
        self.assertEqual(len(set(names)), len(names), names)

    def test_by_server(self) -> None:
        """Files that a server writes."""
        self.call()
        pid = self.one_server()
        seen = []
        for number in (2, 3):
            self.put("p/b.o", number)
            seen.append(self.traced(pid))
            self.assertEqual(self.number(), number)
        self.assert_new(*seen)

    def test_alone(self) -> None:
        """Files of a link without a server."""
        self.assert_new(*(self.traced(None, LD_LDI, "--no-server", *WORDS) for _ in range(2)))


class SharedTest(ProjectTest):
    """Another user of the folder puts something under the names that he has seen."""

    def setUp(self) -> None:
        """Lets all write in the folder, as in /tmp."""
        super().setUp()
        (self.folder / "p").chmod(0o1777)
        self.call()
        self.server = self.one_server()
        self.seen: set[str] = set()

    def watch_names(self, rounds: int) -> None:
        """Notes the names beside the image that some calls use."""
        is_done = threading.Event()

        def look() -> None:
            while not is_done.is_set():
                self.seen.update(name for name in os.listdir(self.folder / "p") if name.startswith("."))

        thread = threading.Thread(target=look)
        thread.start()
        for number in range(rounds):
            self.put("p/b.o", 100 + number)
            self.call()
        is_done.set()
        thread.join()

    def names(self) -> list[str]:
        """The names that were seen, and those that may come, by what is known of how they are made."""
        told = [f".image.{self.server}.{number}.new" for number in range(100)]
        return sorted({*self.seen, *told} - set(os.listdir(self.folder / "p")))

    def call_after(self, number: int) -> None:
        """A call after a new object."""
        self.put("p/b.o", number)
        done = self.serve(*WORDS, cwd="p")
        self.assertEqual((done.returncode, self.number()), (0, number), done.stderr)
        self.assertFalse((self.folder / "p" / "image").is_symlink())

    def test_hard_link(self) -> None:
        """A hard link to a file of the user."""
        own = self.write("own", "what is mine")
        self.watch_names(5)
        for name in self.names():
            os.link(own, self.folder / "p" / name)
        self.call_after(7)
        self.assertEqual(own.read_text(), "what is mine")
        self.assertEqual(stat.S_IMODE(own.stat().st_mode) & 0o111, 0)

    def test_symbolic_link(self) -> None:
        """A symbolic link to a file of the user, or to nothing."""
        own = self.write("own", "what is mine")
        self.watch_names(5)
        for at, name in enumerate(self.names()):
            os.symlink(own if at % 2 else self.folder / "none", self.folder / "p" / name)
        self.call_after(7)
        self.assertEqual(own.read_text(), "what is mine")
        self.assertFalse((self.folder / "none").exists())

    def test_fifo(self) -> None:
        """A FIFO, which nobody reads."""
        self.watch_names(5)
        for name in self.names():
            os.mkfifo(self.folder / "p" / name)
        self.call_after(7)

    @needs_root
    def test_owner(self) -> None:
        """A file of another user: the image is the caller's own."""
        self.watch_names(5)
        for name in self.names():
            path = self.write(f"p/{name}", "")
            path.chmod(0o666)
            os.chown(path, NOBODY, NOBODY)
        self.call_after(7)
        self.assertEqual((self.folder / "p" / "image").stat().st_uid, 0)

    def test_alone(self) -> None:
        """The same of a link without a server, whose number can be told in advance."""
        own = self.write("own", "what is mine")
        for ahead in range(1, 400):
            os.link(own, self.folder / "p" / f".image.{os.getpid() + ahead}.0.new")
        self.put("p/b.o", 8)
        self.links(*WORDS, cwd="p")
        self.assertEqual((self.number(), own.read_text()), (8, "what is mine"))


@needs("strace")
class HeldUpTest(ProjectTest):
    """A call is held up before it puts its file in place, and another one comes meanwhile."""

    def held_up(self, seconds: float) -> subprocess.Popen[str]:
        """Starts a call that waits before its first rename."""
        call = self.begin("strace", "-qq", "-o", "/dev/null", "-e", "trace=/^rename",
                          "-e", RENAMES.format(int(seconds * 1e6)), LD_LDI, *WORDS)
        there = self.beside()
        self.wait(lambda: call.poll() is not None or self.beside() != there, "the call does not write its image")
        if call.poll() is not None:
            raise unittest.SkipTest(f"nothing can be injected: {call.communicate()[1].strip()[:200]}")
        time.sleep(0.4)
        return call

    def beside(self) -> list[Path]:
        """What stands beside the image."""
        return [path for path in (self.folder / "p").iterdir() if path.name.startswith(".image.")]

    def assert_ends(self, call: subprocess.Popen[str], number: int) -> None:
        """The call that was held up ends well, and the image is not the one that it had made before."""
        _, errors = call.communicate(timeout=LIMIT)
        self.assertEqual((call.returncode, self.number()), (0, number), errors)

    def test_another_call(self) -> None:
        """The other call is made while the first one waits."""
        self.call()
        self.put("p/b.o", 2)
        call = self.held_up(2)
        self.put("p/b.o", 3)
        self.call()
        self.assertEqual(self.number(), 3)
        self.assert_ends(call, 3)
        self.wait(lambda: not self.beside(), "something is left beside the image")

    def test_server_has_ended(self) -> None:
        """The server is killed while the call waits."""
        self.call()
        pid = self.one_server()
        self.put("p/b.o", 2)
        call = self.held_up(2)
        os.kill(pid, 9)
        self.put("p/b.o", 3)
        self.call()
        self.assertEqual(self.number(), 3)
        self.assert_ends(call, 3)

    def test_server_is_stopped(self) -> None:
        """The server is stopped while the call waits, so that another takes its place."""
        self.call()
        pid = self.one_server()
        self.put("p/b.o", 2)
        call = self.held_up(3)
        os.kill(pid, 19)
        try:
            self.put("p/b.o", 3)
            self.call(env={"LDI_SERVER_ANSWER": "0.1"})
            self.assertEqual(self.number(), 3)
            self.assert_ends(call, 3)
        finally:
            os.kill(pid, 18)

    def test_long(self) -> None:
        """It waits for longer than a server holds a link, and goes on while another one waits."""
        self.call()
        self.put("p/b.o", 2)
        call = self.held_up(12)
        time.sleep(10)
        self.put("p/b.o", 3)
        other = self.held_up(3)
        self.assert_ends(call, 3)
        self.assert_ends(other, 3)
