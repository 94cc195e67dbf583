"""`ldi-watch`: the session's end, and the program's own."""
import os
import signal
import time
import unittest

from tests.programs import LDI
from tests.watching import Folder, Watching, numbered, wait_until

NO_MEMORY = """#!/usr/bin/python3
import subprocess, sys
session = subprocess.Popen([%r, *sys.argv[1:]], stdin=subprocess.PIPE, stdout=subprocess.PIPE)
while line := sys.stdin.buffer.readline():
    words = line.split()
    data = sys.stdin.buffer.read(int(words[-1])) if words[0] in (b"add", b"replace", b"script") else b""
    if words[0] == b"remove":
        answer = b"refused 7 0\\n"
    else:
        session.stdin.write(line + data)
        session.stdin.flush()
        answer = session.stdout.readline()
    sys.stdout.buffer.write(answer)
    if answer.startswith(b"bytes"):
        sys.stdout.buffer.write(session.stdout.read(int(answer.split()[1])))
    sys.stdout.flush()
"""
"""A linker in front of the linker, which has no memory to remove an object."""


def is_running(pid: int) -> bool:
    """Whether there is such a process, and it has not ended."""
    try:
        with open(f"/proc/{pid}/stat", encoding="ascii") as file:
            return file.read().rsplit(")", 1)[1].split()[0] not in "ZX"
    except FileNotFoundError:
        return False


class SessionTest(unittest.TestCase):
    """A session that is killed, and signals to the program."""

    def setUp(self) -> None:
        self.folder = Folder()
        self.addCleanup(self.folder.remove)

    def opened(self, *words: str) -> Watching:
        """Starts `ldi-watch` over good files, and waits for the first image."""
        watching = Watching(self.folder, *words)
        self.addCleanup(watching.end)
        self.assertEqual(watching.next()["event"], "linked")
        return watching

    def test_killed(self) -> None:
        """A session that is killed is started again; the image is the same, so that it is not written again."""
        watching = self.opened()
        before = os.stat(self.folder / "image").st_ino
        for _ in range(2):
            old = watching.session()
            os.kill(old, signal.SIGKILL)
            said = watching.next()
            self.assertEqual((said["event"], said["why"]), ("restarted", "the session ended by signal 9"))
            said = watching.next()
            self.assertEqual((said["event"], said["written"]), ("linked", False))
            self.assertNotEqual(watching.session(), old)
        self.assertEqual(os.stat(self.folder / "image").st_ino, before)
        self.folder.renew(1, 2)
        self.assertEqual(watching.next()["event"], "linked")
        self.assertEqual(self.folder.image(), self.folder.link())

    def test_killed_and_changed(self) -> None:
        """An image on disk that is another than the new session's is replaced."""
        watching = self.opened()
        (self.folder / "image").write_bytes(b"other")
        os.kill(watching.session(), signal.SIGKILL)
        self.assertEqual(watching.next()["event"], "restarted")
        self.assertTrue(watching.next()["written"])
        self.assertEqual(self.folder.image(), self.folder.link())

    def test_killed_with_faults(self) -> None:
        """A session that is killed while an object is refused."""
        watching = self.opened()
        self.folder.put("o1.o", b"no object")
        self.assertEqual(watching.next()["event"], "refused")
        os.kill(watching.session(), signal.SIGKILL)
        self.assertEqual(watching.next()["event"], "restarted")
        self.folder.renew(1, 2)
        self.assertEqual(watching.wait_for("linked")["after"], ["o1.o"])
        self.assertEqual(self.folder.image(), self.folder.link())

    def test_signals(self) -> None:
        """SIGINT, SIGTERM and SIGHUP end session, commands and watch, with status 0 and nothing half written."""
        for number in (signal.SIGINT, signal.SIGTERM, signal.SIGHUP):
            watching = self.opened("--run", "sleep 60")
            self.assertTrue(wait_until(lambda: len(watching.children()) == 2))
            children = watching.children()
            self.assertEqual(watching.end(number), 0)
            self.assertTrue(wait_until(lambda: not any(is_running(child) for child in children)))
            self.assertEqual((watching.errors, self.folder.left_over()), ("", []))

    def test_signal_in_the_middle(self) -> None:
        """A signal at any time leaves a whole image, and nothing beside it."""
        for number in range(12):
            watching = Watching(self.folder, "--Map", "map")
            time.sleep(0.1 + number * 0.03)
            watching.end(signal.SIGTERM)
            self.assertEqual(self.folder.left_over(), [])
            if (self.folder / "image").exists():
                self.assertEqual(self.folder.image(), self.folder.link())
                self.assertTrue((self.folder / "map").exists())

    def test_none(self) -> None:
        """A linker that cannot be started: status 3, and a line that says so; one that ends at once: the same."""
        for program in ("/nowhere/ldi", "/bin/true"):
            watching = Watching(self.folder, "--once", env={**os.environ, "LDI": program})
            self.assertEqual(watching.wait(), 3)
            self.assertNotIn("Traceback", watching.errors)

    def test_stands_still(self) -> None:
        """A session that ends again and again is not started without pause."""
        watching = Watching(self.folder, env={**os.environ, "LDI": "/bin/false"})
        events = [watching.next()["event"] for _ in range(3)]
        self.assertEqual(events, ["restarted", "restarted", "waiting"])
        self.assertTrue(watching.is_silent(1.5))
        self.assertEqual((watching.end(), watching.errors), (0, ""))

    def test_remove_refused(self) -> None:
        """A session without memory to remove an object: it is said, and the old image stays."""
        self.folder.put("ldi", (NO_MEMORY % LDI).encode())
        os.chmod(self.folder / "ldi", 0o755)
        (self.folder / "list").write_text("o0.o\no1.o\no2.o\n")
        for number in range(3):
            self.folder.put(f"o{number}.o", numbered(number, 1, 3, calls="f0"))
        watching = Watching(self.folder, names=["@list"], env={**os.environ, "LDI": str(self.folder / "ldi")})
        self.addCleanup(watching.end)
        self.assertEqual(watching.next()["event"], "linked")
        before = self.folder.image()
        (self.folder / "list").write_text("o0.o\no1.o\n")
        said = watching.next()
        self.assertEqual((said["event"], said["inputs"][0]["line"]), ("refused", "o2.o: refused 7 0"))
        self.assertEqual(self.folder.image(), before)

    def test_killed_while_faults_stand(self) -> None:
        """A session that is killed again and again while the link has faults is started again each time."""
        watching = self.opened()
        self.folder.put("o1.o", numbered(1, 2, 3, calls="nothing"))
        self.assertEqual(watching.next()["event"], "faults")
        for number in range(5):
            os.kill(watching.session(), signal.SIGKILL)
            self.assertEqual(watching.next()["event"], "restarted")
            self.folder.put("o1.o", numbered(1, 2, 3, calls=f"none{number}"))
            while f"none{number}" not in watching.wait_for("faults")["faults"][0]["line"]:
                pass
        self.folder.renew(1, 2)
        self.assertEqual(watching.next()["event"], "linked")
        self.assertEqual(self.folder.image(), self.folder.link())
