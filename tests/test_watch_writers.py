"""`ldi-watch`: who writes a file, as a lease says it: writers from before the watch, through other names, and none."""
import fcntl
import os
import tempfile
import time
import unittest

from tests.test_watch_commands import FolderTest
from tests.watching import Watching, numbered, run_once, wait_until


def can_be_asked() -> bool:
    """Whether the file system of temporary files has leases."""
    descriptor, path = tempfile.mkstemp()
    os.close(descriptor)
    try:
        with open(path, "rb") as file:
            fcntl.fcntl(file, fcntl.F_SETLEASE, fcntl.F_RDLCK)
            fcntl.fcntl(file, fcntl.F_SETLEASE, fcntl.F_UNLCK)
    except OSError:
        return False
    finally:
        os.unlink(path)
    return True


@unittest.skipUnless(can_be_asked(), "the file system has no leases")
class WritersTest(FolderTest):
    """Files that somebody has open."""

    def opened(self) -> Watching:
        """Starts `ldi-watch` over good files, and waits for the first image."""
        watching = self.watch()
        self.assertEqual(watching.next()["event"], "linked")
        return watching

    def test_before_the_watch(self) -> None:
        """A list that somebody has written half before the watch began: no image before he closes it."""
        with open(self.folder / "list", "w", encoding="utf-8") as file:
            file.write("o0.o\no1.o\n")
            file.flush()
            watching = Watching(self.folder, names=["@list"])
            self.addCleanup(watching.end)
            self.assertEqual(watching.next()["reasons"], [{"name": "list", "why": "it is being written"}])
            self.assertFalse((self.folder / "image").exists())
            file.write("o2.o\n")
        self.assertEqual(watching.next()["event"], "linked")
        self.assertEqual(self.folder.image(), self.folder.link())

    def test_once(self) -> None:
        """With --once that is waited for, and a writer that does not end is said after a while."""
        file = open(self.folder / "o1.o", "r+b")  # pylint: disable=consider-using-with
        self.addCleanup(file.close)
        begins = time.monotonic()
        done = run_once(self.folder)
        self.assertEqual(done.returncode, 0)
        self.assertGreater(time.monotonic() - begins, 4.5)
        self.assertIn("o1.o: its writer has not closed it for 5 s: read as it is\n", done.stdout)
        self.assertEqual(self.folder.image(), self.folder.link())

    def test_through_another_name(self) -> None:
        """A new object that is written through another name, in a folder that is not watched."""
        watching = self.opened()
        before = self.folder.image()
        os.mkdir(self.folder / "away")
        with open(self.folder / "away" / "o1.o", "wb", buffering=0) as file:
            file.write(numbered(1, 2, 3))
            os.unlink(self.folder / "o1.o")
            os.link(self.folder / "away" / "o1.o", self.folder / "o1.o")
            time.sleep(0.3)
            self.assertEqual(self.folder.image(), before)
            file.seek(0)
            file.write(numbered(1, 5, 3))
        said = watching.up_to("linked")
        self.assertNotIn("not closed", str(said))
        self.assertEqual(said[-1]["after"], ["o1.o"])
        self.assertEqual(self.folder.image(), self.folder.link())

    def test_renamed_from_elsewhere(self) -> None:
        """An object that is renamed into place from a folder that is not watched, by one who has not closed it."""
        watching = self.opened()
        before = self.folder.image()
        os.mkdir(self.folder / "away")
        with open(self.folder / "away" / "o1.o", "wb", buffering=0) as file:
            file.write(numbered(1, 2, 3))
            os.rename(self.folder / "away" / "o1.o", self.folder / "o1.o")
            time.sleep(0.3)
            self.assertEqual(self.folder.image(), before)
            file.seek(0)
            file.write(numbered(1, 5, 3))
        self.assertEqual(watching.wait_for("linked")["after"], ["o1.o"])
        self.assertEqual(self.folder.image(), self.folder.link())

    def test_truncated(self) -> None:
        """truncate(2) has no file to close: what it makes is read at once."""
        data = numbered(1, 2, 3)
        watching = self.opened()
        self.folder.put("o1.o", data + b"\0" * 64)
        self.assertEqual(watching.next()["event"], "linked")
        os.truncate(self.folder / "o1.o", 40)
        self.assertNotIn("not closed", str(watching.up_to("refused")))

    def test_linked_and_unlinked(self) -> None:
        """An object that was written, linked and unlinked at once has no writer to wait for."""
        watching = self.opened()
        for version in (2, 3, 4):
            os.unlink(self.folder / "o1.o")
            (self.folder / "next").write_bytes(numbered(1, version, 3))
            os.link(self.folder / "next", self.folder / "o1.o")
            os.unlink(self.folder / "next")
            self.assertNotIn("not closed", str(watching.up_to("linked")))
            self.assertTrue(wait_until(lambda: self.folder.image() == self.folder.link()))

    def test_lease_is_given_back(self) -> None:
        """A writer is not held up after a file was read."""
        self.opened()
        begins = time.monotonic()
        with open(self.folder / "o1.o", "r+b"):
            self.assertLess(time.monotonic() - begins, 10)  # the system waits for 45 s

    def test_renamed_to_an_input(self) -> None:
        """A file that is no input is renamed to the name of one while it is being written: that is seen."""
        watching = self.opened()
        before = self.folder.image()
        with open(self.folder / "new", "wb", buffering=0) as file:
            file.write(numbered(1, 2, 3))
            os.rename(self.folder / "new", self.folder / "o1.o")
            time.sleep(0.3)
            self.assertEqual(self.folder.image(), before)
            file.seek(0)
            file.write(numbered(1, 5, 3))
        self.assertEqual(watching.wait_for("linked")["after"], ["o1.o"])
        self.assertEqual(self.folder.image(), self.folder.link())
