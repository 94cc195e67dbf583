"""Calls end, and servers too, where a session is stopped or an input never has an end."""
from __future__ import annotations

import os
import select
import signal
import time
from pathlib import Path
from typing import BinaryIO

from tests.programs import LD_LDI, LIMIT, SCRIPT, WORDS, ProjectTest, is_running, signal_to


def children(pid: int) -> list[int]:
    """The processes that read from a pipe of another one, as its session does."""
    pipes = {link for link in map(linked, Path(f"/proc/{pid}/fd").iterdir()) if link.startswith("pipe:")}
    others = [int(path.name) for path in Path("/proc").iterdir() if path.name.isdigit() and int(path.name) != pid]
    return [other for other in others if linked(Path(f"/proc/{other}/fd/0")) in pipes]


def linked(path: Path) -> str:
    """Where a link of /proc leads."""
    try:
        return os.readlink(path)
    except OSError:
        return ""


class StuckTest(ProjectTest):
    """A server whose link does not end."""

    def setUp(self) -> None:
        """Makes a server."""
        super().setUp()
        self.call()
        self.server = self.one_server()

    def stop_session(self) -> int:
        """Stops the session of the server; gives its process."""
        session, = children(self.server)
        os.kill(session, signal.SIGSTOP)
        self.addCleanup(signal_to, session, signal.SIGKILL)
        return session

    def test_session_is_stopped(self) -> None:
        """The call has its image, and neither server nor session stays."""
        session = self.stop_session()
        self.put("p/b.o", 2)
        done = self.serve(*WORDS, cwd="p")
        self.assertEqual((done.returncode, self.number()), (0, 2), done.stderr)
        self.wait(lambda: not is_running(session), "the stopped session stays")
        self.call()
        self.one_server()

    def test_call_has_gone(self) -> None:
        """The call is ended while it waits for a stopped session: the server ends too."""
        session = self.stop_session()
        self.put("p/b.o", 2)
        call = self.begin(LD_LDI, *WORDS)
        self.wait(lambda: ", busy" in self.status() or not is_running(self.server), "the server is not busy")
        call.kill()
        call.communicate()
        self.wait(lambda: not is_running(self.server), "the server stays")
        self.wait(lambda: not is_running(session), "the stopped session stays")

    def test_server_is_stopped(self) -> None:
        """A server that is stopped is replaced, and ends when it goes on."""
        os.kill(self.server, signal.SIGSTOP)
        self.put("p/b.o", 2)
        done = self.serve(*WORDS, cwd="p", env={"LDI_SERVER_ANSWER": "0.1"})
        self.assertEqual((done.returncode, self.number()), (0, 2), done.stderr)
        os.kill(self.server, signal.SIGCONT)
        self.wait(lambda: not is_running(self.server), "the server that was replaced stays")


class FifoTest(ProjectTest):
    """An input that becomes a FIFO, which nobody writes."""

    def fifo(self, name: str) -> None:
        """Makes a file of the project a FIFO."""
        (self.folder / "p" / name).unlink(missing_ok=True)
        os.mkfifo(self.folder / "p" / name)

    def write_through(self, fifo: BinaryIO, data: bytes) -> None:
        """Writes into a FIFO that is open here, and waits until another has read all of it."""
        fifo.write(data)
        self.wait(lambda: not select.select([fifo], [], [], 0)[0], "nobody reads it")

    def assert_refused(self, name: str, *words: str) -> None:
        """The call ends, without the image of what was there before; the server makes links again."""
        words = words or WORDS
        self.call(*words)
        pid = self.one_server()
        before = (self.folder / "p" / name).read_bytes()
        (self.folder / "p" / "image").unlink()
        self.fifo(name)
        done = self.serve(*words, cwd="p")
        self.assertNotEqual(done.returncode, 0, done.stdout)
        self.assertIn(name, done.stderr)
        self.assertFalse((self.folder / "p" / "image").exists())
        alone = self.ld(*words, cwd="p")
        self.assertEqual((alone.returncode, alone.stderr), (done.returncode, done.stderr))
        (self.folder / "p" / name).unlink()
        self.write(f"p/{name}", before)
        self.put("p/b.o", 9)
        self.call(*words)
        self.assertEqual(self.number(), 9)
        self.wait(lambda: pid in self.servers() or not is_running(pid), "the server hangs")

    def test_object(self) -> None:
        """An object."""
        self.assert_refused("a.o")

    def test_script(self) -> None:
        """The script."""
        self.assert_refused("t.ld")

    def test_archive(self) -> None:
        """An archive."""
        self.must("ar", "rcs", "liba.a", "a.o", cwd="p")
        self.assert_refused("liba.a", *(word.replace("a.o", "liba.a") for word in WORDS), "-u", "_start")

    def test_included(self) -> None:
        """What the script includes."""
        self.write("p/i.ld", SCRIPT)
        self.write("p/t.ld", "INCLUDE i.ld\n")
        self.assert_refused("i.ld")

    def test_response_file(self) -> None:
        """A response file that nobody writes does not hold up a server."""
        self.write("p/words", "a.o b.o")
        words = ("-T", "t.ld", "-o", "image", "@words")
        self.call(*words)
        self.fifo("words")
        self.put("p/b.o", 3)
        with open(self.folder / "p" / "words", "r+b", buffering=0) as file:
            call = self.begin(LD_LDI, *words)
            self.write_through(file, b"a.o b.o")
        self.assertEqual((call.wait(LIMIT), self.number()), (0, 3))

    def test_script_is_written(self) -> None:
        """A script that comes through a FIFO is read as it is written."""
        self.call()
        self.fifo("t.ld")
        self.put("p/b.o", 3)
        with open(self.folder / "p" / "t.ld", "r+b", buffering=0) as file:
            call = self.begin(LD_LDI, *WORDS)
            self.write_through(file, SCRIPT[:40].encode())
            time.sleep(0.5)
            self.write_through(file, SCRIPT[40:].encode())
        self.assertEqual((call.wait(LIMIT), self.number()), (0, 3))

    def test_server_stays_free(self) -> None:
        """An input that becomes a FIFO while somebody holds it open for writing."""
        self.call()
        self.fifo("b.o")
        descriptor = os.open(self.folder / "p" / "b.o", os.O_RDWR)
        try:
            call = self.begin(LD_LDI, *WORDS)
            time.sleep(1)
            self.assertEqual([line for line in self.status().splitlines() if "busy" in line], [])
            call.kill()
        finally:
            os.close(descriptor)
