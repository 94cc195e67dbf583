"""`ldi-watch`: what the system says of files, what it does not say, and what it loses."""
import mmap
import os
import signal
import time
from pathlib import Path

from tests.test_watch_commands import MAKE, FolderTest
from tests.watching import Watching, numbered, wait_until

QUEUE = Path("/proc/sys/fs/inotify/max_queued_events")
"""How many events the system keeps for a program that does not read them."""


class EventsTest(FolderTest):
    """Events of the objects."""

    def opened(self, *words: str) -> Watching:
        """Starts `ldi-watch` over good files, and waits for the first image."""
        watching = self.watch(*words)
        self.assertEqual(watching.next()["event"], "linked")
        return watching

    def assert_linked(self) -> None:
        """The image is that of the files."""
        self.assertEqual(self.folder.image(), self.folder.link())

    def test_gathered(self) -> None:
        """Objects that change while it does something else lead to one image."""
        watching = self.opened()
        os.kill(watching.process.pid, signal.SIGSTOP)
        names = [self.folder.renew(number, 2) for number in range(3)]
        os.kill(watching.process.pid, signal.SIGCONT)
        said = watching.next()
        self.assertEqual((said["event"], sorted(said["after"])), ("linked", names))
        self.assertTrue(watching.is_silent(0.3))
        self.assert_linked()

    def test_without_events(self) -> None:
        """A change that no event tells of, as in a file that is mapped into memory, is found within a second."""
        data = numbered(1, 4, 3)
        self.folder.put("o1.o", data)
        watching = self.opened()
        with open(self.folder / "o1.o", "r+b") as file, mmap.mmap(file.fileno(), 0) as mapped:
            at = data.index((4).to_bytes(8, "little"))
            mapped[at : at + 8] = (7).to_bytes(8, "little")
            mapped.flush()
            self.assertEqual(watching.next(10)["after"], ["o1.o"])
            self.assert_linked()

    def test_two_writers(self) -> None:
        """One who closes an object that was removed says nothing of the new one, which another has not closed."""
        watching = self.opened()
        before = self.folder.image()
        with open(self.folder / "o1.o", "r+b", buffering=0) as old:
            os.unlink(self.folder / "o1.o")
            with open(self.folder / "o1.o", "wb", buffering=0) as new:
                new.write(numbered(1, 2, 3))
                time.sleep(0.1)
                old.write(b"\x7f")
                old.close()
                time.sleep(0.2)
                self.assertEqual(self.folder.image(), before)
                new.seek(0)
                new.write(numbered(1, 5, 3))
        self.assertEqual(watching.wait_for("linked")["after"], ["o1.o"])
        self.assert_linked()

    def test_renamed_while_it_is_written(self) -> None:
        """An object that is renamed into place by one who has not closed it is being written still."""
        watching = self.opened()
        before = self.folder.image()
        with open(self.folder / "next", "wb", buffering=0) as file:
            file.write(numbered(1, 2, 3))
            os.rename(self.folder / "next", self.folder / "o1.o")
            time.sleep(0.2)
            self.assertEqual(self.folder.image(), before)
            file.seek(0)
            file.write(numbered(1, 5, 3))
        self.assertEqual(watching.wait_for("linked")["after"], ["o1.o"])
        self.assert_linked()

    def test_created_and_not_written(self) -> None:
        """A script that was created, and given a mode, but not written yet: it is not taken for an empty one."""
        watching = self.opened("--orphan-handling", "discard", "-e", "f0")
        before = os.stat(self.folder / "image").st_ino
        script = (self.folder / "t.ld").read_bytes()
        os.kill(watching.process.pid, signal.SIGSTOP)
        os.unlink(self.folder / "t.ld")
        with open(self.folder / "t.ld", "wb", buffering=0) as file:
            time.sleep(0.05)
            os.fchmod(file.fileno(), 0o600)
            os.kill(watching.process.pid, signal.SIGCONT)
            said = watching.next()
            self.assertEqual((said["event"], said["reasons"][0]["name"]), ("waiting", "t.ld"))
            file.write(script)
        self.assertFalse(watching.next()["written"])
        self.assertEqual(os.stat(self.folder / "image").st_ino, before)

    def test_link_alone(self) -> None:
        """An object that comes as a link, whose other name is removed at once, has no writer to wait for."""
        watching = self.opened()
        other = self.folder / "other"
        other.write_bytes(numbered(1, 2, 3))
        time.sleep(0.1)
        os.unlink(self.folder / "o1.o")
        os.kill(watching.process.pid, signal.SIGSTOP)
        os.link(other, self.folder / "o1.o")
        os.unlink(other)
        os.kill(watching.process.pid, signal.SIGCONT)
        self.assertNotIn("not closed", str(watching.up_to("linked")))
        self.assert_linked()

    def test_folder_replaced(self) -> None:
        """A folder that another takes the place of is watched under its name, and the old one no longer."""
        for name, version in (("build", 1), ("next", 2)):
            os.mkdir(self.folder / name)
            (self.folder / name / "o1.o").write_bytes(numbered(1, version, 3))
        self.folder.names[1] = "build/o1.o"
        watching = self.opened()
        os.rename(self.folder / "build", self.folder / "old")
        os.rename(self.folder / "next", self.folder / "build")
        self.assertEqual(watching.wait_for("linked")["after"], ["build/o1.o"])
        self.assert_linked()
        before = self.folder.image()
        with open(self.folder / "build" / "o1.o", "r+b", buffering=0) as file:
            file.write(numbered(1, 5, 3))
            (self.folder / "old" / "o1.o").write_bytes(numbered(1, 8, 3))
            time.sleep(0.2)
            self.assertEqual(self.folder.image(), before)
        watching.wait_for("linked")
        self.assert_linked()

    def test_own_folder_renamed(self) -> None:
        """The folder that it runs in gets another name."""
        inner = self.folder / "inner"
        os.mkdir(inner)
        for name in ("t.ld", *self.folder.names):
            os.rename(self.folder / name, inner / name)
        top, self.folder.path = self.folder.path, inner
        self.addCleanup(setattr, self.folder, "path", top)
        watching = self.opened()
        self.folder.path = top / "other"
        os.rename(inner, self.folder.path)
        for version in (2, 3):
            self.folder.renew(1, version)
            self.assertEqual(watching.wait_for("linked")["after"], ["o1.o"])
            self.assert_linked()
        with open(self.folder / "o2.o", "r+b", buffering=0) as file:
            file.write(numbered(2, 2, 3))
            time.sleep(0.2)
            self.assertNotEqual(self.folder.image(), self.folder.link())
        watching.wait_for("linked")
        self.assert_linked()


class LostTest(FolderTest):
    """More events than the system keeps."""

    def lose(self, watching: Watching) -> None:
        """Stops `ldi-watch`, and makes so many events that the next are lost."""
        os.kill(watching.process.pid, signal.SIGSTOP)
        for name in ("a.txt", "b.txt"):
            (self.folder / name).write_text("")
        for _ in range(int(QUEUE.read_text()) // 2 + 10):
            os.utime(self.folder / "a.txt")
            os.utime(self.folder / "b.txt")

    def test_object(self) -> None:
        """An object that changed meanwhile is found at once."""
        watching = self.watch()
        self.assertEqual(watching.next()["event"], "linked")
        self.lose(watching)
        self.folder.renew(1, 2)
        os.kill(watching.process.pid, signal.SIGCONT)
        self.assertEqual(watching.next()["after"], ["o1.o"])
        self.assertEqual(self.folder.image(), self.folder.link())

    def test_source(self) -> None:
        """A source that changed meanwhile leads to a run of the command."""
        for number, name in enumerate(self.folder.names):
            os.rename(self.folder / name, self.folder / f"o{number}.c")
        watching = self.watch("--make", MAKE)
        self.assertEqual(watching.next()["event"], "linked")
        self.lose(watching)
        self.folder.put("o1.c", numbered(1, 2, 3))
        os.kill(watching.process.pid, signal.SIGCONT)
        self.assertTrue(wait_until(lambda: (self.folder / "log").read_text() == "run\nrun\n"))
        self.assertEqual(watching.next()["after"], ["o1.o"])
        self.assertEqual(self.folder.image(), self.folder.link())


class SourceFoldersTest(FolderTest):
    """Folders of sources."""

    def test_folder_replaced(self) -> None:
        """A folder of sources whose place another takes: what is there now is made, and watched."""
        for number, name in enumerate(self.folder.names):
            os.rename(self.folder / name, self.folder / f"o{number}.c")
        for name, text in (("parts", "1"), ("next", "2")):
            os.mkdir(self.folder / name)
            (self.folder / name / "a.h").write_text(text)
        watching = self.watch("--make", f"{MAKE}; cat parts/a.h >> seen")
        self.assertEqual(watching.next()["event"], "linked")
        os.rename(self.folder / "parts", self.folder.path.with_name(self.folder.path.name + ".old"))
        self.addCleanup(os.system, f"rm -rf {self.folder.path}.old")
        self.assertTrue(wait_until(lambda: not (self.folder / "parts").exists()))
        os.rename(self.folder / "next", self.folder / "parts")
        seen = self.folder / "seen"
        self.assertTrue(wait_until(lambda: seen.read_text().endswith("2")))
        (self.folder / "parts" / "a.h").write_text("3")
        self.assertTrue(wait_until(lambda: seen.read_text().endswith("3")))
