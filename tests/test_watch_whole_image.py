"""`ldi-watch`: the image is that of all files as they are, or the one before."""
import os
import time
import unittest

from tests.programs import LDI
from tests.watching import SCRIPT, Folder, Watching, numbered, wait_until

MEDDLING = """#!/usr/bin/python3
import os, subprocess, sys
session = subprocess.Popen([%r, *sys.argv[1:]], stdin=subprocess.PIPE, stdout=subprocess.PIPE)
while line := sys.stdin.buffer.readline():
    words = line.split()
    if words[0] == b"image" and os.path.exists("next.o"):
        os.rename("next.o", "o1.o")
    session.stdin.write(line)
    session.stdin.write(sys.stdin.buffer.read(int(words[-1])) if words[0] in (b"add", b"replace", b"script") else b"")
    session.stdin.flush()
    answer = session.stdout.readline()
    sys.stdout.buffer.write(answer)
    if answer.startswith(b"bytes"):
        sys.stdout.buffer.write(session.stdout.read(int(answer.split()[1])))
    sys.stdout.flush()
"""
"""A linker in front of the linker, which replaces an object when it is asked for an image."""


class TruthTest(unittest.TestCase):
    """The image after each change of the files."""

    def setUp(self) -> None:
        self.folder = Folder()
        self.addCleanup(self.folder.remove)

    def watch(self, *words: str, names: list[str] | None = None) -> Watching:
        """Starts `ldi-watch`, which is ended after the test."""
        watching = Watching(self.folder, *words, names=names)
        self.addCleanup(watching.end)
        return watching

    def opened(self, *words: str) -> Watching:
        """Starts `ldi-watch` over good files, and waits for the first image."""
        watching = self.watch(*words)
        self.assertEqual(watching.next()["event"], "linked")
        self.assertEqual(self.folder.image(), self.folder.link(*words))
        return watching

    def test_changes(self) -> None:
        """Each object that is put in place leads to the image of `ldi link`, said once with the object's name."""
        watching = self.opened()
        for version in range(2, 6):
            name = self.folder.renew(version % 3, version)
            said = watching.next()
            self.assertEqual((said["event"], said["after"]), ("linked", [name]))
            self.assertEqual(self.folder.image(), self.folder.link())

    def test_same_bytes(self) -> None:
        """An object that is written anew with the same bytes leads to nothing."""
        watching = self.opened()
        self.folder.renew(1, 1)
        os.utime(self.folder / "o2.o")
        self.assertTrue(watching.is_silent(0.5))

    def test_options(self) -> None:
        """The words of `ldi link` mean what they mean there."""
        self.folder.put("o1.o", numbered(1, 1, 3, calls="f0"))
        for words in (["--gc-sections", "-ef1"], ["-e=f2"], ["--gc-sections"]):
            self.opened(*words).end()

    def test_refused_at_the_start(self) -> None:
        """An object that is refused at the start: no image, and after it is mended, that of the files."""
        self.folder.put("o1.o", b"no object")
        watching = self.watch()
        said = watching.next()
        self.assertEqual((said["event"], [one["name"] for one in said["inputs"]]), ("refused", ["o1.o"]))
        self.assertFalse((self.folder / "image").exists())
        self.folder.renew(1, 2)
        self.assertEqual(watching.next()["event"], "linked")
        self.assertEqual(self.folder.image(), self.folder.link())

    def test_refused_in_the_middle(self) -> None:
        """While an object is refused the old image stays, whatever else changes; mended, all changes are in."""
        watching = self.opened()
        before = self.folder.image()
        self.folder.put("o1.o", b"no object")
        self.assertEqual(watching.next()["event"], "refused")
        self.folder.renew(2, 2)
        self.assertTrue(watching.is_silent(0.5))
        self.assertEqual(self.folder.image(), before)
        self.folder.renew(1, 3)
        self.assertEqual(watching.next()["event"], "linked")
        self.assertEqual(self.folder.image(), self.folder.link())

    def test_refused_and_back(self) -> None:
        """An object that is refused and then has its old bytes again: the image is said to be as it was."""
        watching = self.opened()
        self.folder.put("o1.o", b"no object")
        self.assertEqual(watching.next()["event"], "refused")
        self.folder.renew(1, 1)
        said = watching.next()
        self.assertEqual((said["event"], said["written"]), ("linked", False))

    def test_many_refused_and_back(self) -> None:
        """Objects that were refused and have their old bytes again: from then on nothing is sent without a change."""
        self.folder.remove()
        self.folder = Folder(6)
        self.addCleanup(self.folder.remove)
        watching = self.opened()
        for name in self.folder.names:
            self.folder.put(name, b"no object")
        self.assertEqual(watching.next()["event"], "refused")
        for number in range(6):
            self.folder.renew(number, 1)
        watching.wait_for("linked")
        self.assertTrue(watching.is_silent(0.4))
        self.assertEqual(self.folder.image(), self.folder.link())
        before = os.stat(self.folder / "image").st_ino
        for _ in range(2):
            os.utime(self.folder / "o1.o")
            self.assertTrue(watching.is_silent(0.4))
        self.assertEqual(os.stat(self.folder / "image").st_ino, before)

    def test_refused_for_a_moment(self) -> None:
        """An object that is refused for less than 0.3 s is not said."""
        watching = self.opened()
        for version in range(2, 12):
            begins = time.monotonic()
            self.folder.put("o1.o", b"no object")
            time.sleep(0.1)
            self.folder.renew(1, version)
            if time.monotonic() < begins + 0.2:
                self.assertEqual(watching.next()["event"], "linked")
                break
            watching.wait_for("linked")  # the machine has other work
        self.assertEqual(self.folder.image(), self.folder.link())

    def test_half_written(self) -> None:
        """An object that is written in two parts: the old image stays until its writer closes it."""
        watching = self.opened()
        before = self.folder.image()
        data = numbered(1, 9, 3)
        with open(self.folder / "o1.o", "wb", buffering=0) as file:
            file.write(data[:300])
            said = watching.next()
            self.assertEqual((said["event"], said["reasons"][0]["name"]), ("waiting", "o1.o"))
            self.folder.renew(2, 9)
            time.sleep(0.1)
            self.assertEqual(self.folder.image(), before)
            file.write(data[300:])
        self.assertEqual(watching.next()["event"], "linked")
        self.assertEqual(self.folder.image(), self.folder.link())

    def test_whole_but_not_closed(self) -> None:
        """An object that could be linked as it stands, but is not closed: it is not linked."""
        watching = self.opened()
        before = self.folder.image()
        with open(self.folder / "o1.o", "r+b", buffering=0) as file:
            file.write(numbered(1, 8, 3))
            time.sleep(0.15)
            self.assertEqual(self.folder.image(), before)
            file.seek(0)
            file.write(numbered(1, 15, 3))
        watching.wait_for("linked")
        self.assertEqual(self.folder.image(), self.folder.link())

    def test_never_closed(self) -> None:
        """A writer that never closes an object: after a while it is said, and the object read as it is."""
        watching = self.opened()
        with open(self.folder / "o1.o", "wb", buffering=0) as file:
            file.write(numbered(1, 3, 3))
            self.assertIn("being written", watching.next()["reasons"][0]["why"])
            self.assertIn("not closed", watching.next()["reasons"][0]["why"])
            self.assertEqual(watching.next()["event"], "linked")
            self.assertEqual(self.folder.image(), self.folder.link())

    def test_links(self) -> None:
        """An object that comes as a link to a file has no writer; one that is a symbolic link is followed."""
        watching = self.opened()
        (self.folder / "other").write_bytes(numbered(1, 2, 3))
        os.unlink(self.folder / "o1.o")
        os.link(self.folder / "other", self.folder / "o1.o")
        watching.wait_for("linked")
        os.mkdir(self.folder / "below")
        (self.folder / "below" / "o2.o").write_bytes(numbered(2, 3, 3))
        os.unlink(self.folder / "o2.o")
        os.symlink("below/o2.o", self.folder / "o2.o")
        watching.wait_for("linked")
        (self.folder / "below" / "o2.o").write_bytes(numbered(2, 4, 3))
        watching.wait_for("linked")
        self.assertEqual(self.folder.image(), self.folder.link())

    def test_missing(self) -> None:
        """An object that is not there at the start, comes, goes and comes again."""
        os.unlink(self.folder / "o2.o")
        watching = self.watch()
        self.assertEqual(watching.next()["reasons"], [{"name": "o2.o", "why": "it is not there"}])
        self.assertFalse((self.folder / "image").exists())
        self.folder.renew(2, 2)
        self.assertEqual(watching.next()["event"], "linked")
        before = self.folder.image()
        os.unlink(self.folder / "o2.o")
        self.assertEqual(watching.next()["event"], "waiting")
        self.assertEqual(self.folder.image(), before)
        self.folder.renew(2, 3)
        self.assertEqual(watching.next()["event"], "linked")
        self.assertEqual(self.folder.image(), self.folder.link())

    def test_script_away(self) -> None:
        """The script goes away and comes back, then is refused, then changes."""
        watching = self.opened()
        os.rename(self.folder / "t.ld", self.folder / "away")
        self.assertEqual(watching.next()["reasons"][0]["name"], "t.ld")
        os.rename(self.folder / "away", self.folder / "t.ld")
        said = watching.next()
        self.assertEqual((said["written"], said["bytes"]), (False, len(self.folder.image())))
        self.folder.put("t.ld", b"SECTIONS")
        self.assertEqual(watching.next()["inputs"][0]["name"], "t.ld")
        self.folder.put("t.ld", SCRIPT.replace(b"0x401000", b"0x801000"))
        self.assertEqual(watching.next()["after"], ["t.ld"])
        self.assertEqual(self.folder.image(), self.folder.link())

    def test_faults(self) -> None:
        """While there are faults the old image stays, and they are said once."""
        watching = self.opened()
        before = self.folder.image()
        self.folder.put("o1.o", numbered(1, 2, 3, calls="nothing"))
        said = watching.next()
        self.assertEqual((said["event"], said["count"], said["after"]), ("faults", 1, ["o1.o"]))
        self.assertIn("nothing", said["faults"][0]["line"])
        os.utime(self.folder / "o1.o")
        self.assertTrue(watching.is_silent(0.4))
        self.assertEqual(self.folder.image(), before)
        self.folder.renew(1, 2)
        self.assertEqual(watching.next()["event"], "linked")
        self.assertEqual(self.folder.image(), self.folder.link())

    def test_changed_after_the_image(self) -> None:
        """An object that changes after the image was asked for: that image is not put in place."""
        self.folder.put("ldi", (MEDDLING % LDI).encode())
        os.chmod(self.folder / "ldi", 0o755)
        (self.folder / "next.o").write_bytes(numbered(1, 2, 3))
        watching = Watching(self.folder, env={**os.environ, "LDI": str(self.folder / "ldi")})
        self.addCleanup(watching.end)
        self.assertEqual(watching.next()["event"], "linked")
        self.assertEqual(self.folder.image(), self.folder.link())
        self.assertTrue(watching.is_silent(0.2))

    def test_image_removed(self) -> None:
        """An image that was removed is written again when an object comes, though its bytes are the old ones."""
        watching = self.opened()
        os.unlink(self.folder / "image")
        os.unlink(self.folder / "o1.o")
        self.folder.renew(1, 1)
        self.assertTrue(wait_until(lambda: (self.folder / "image").exists()))
        watching.wait_for("linked")

    def test_image_is_another_file(self) -> None:
        """An image that is a symbolic link, and now names another file: that one is written with the next event."""
        os.symlink("one", self.folder / "image")
        watching = self.opened()
        os.unlink(self.folder / "image")
        os.symlink("two", self.folder / "image")
        os.utime(self.folder / "o1.o")
        self.assertTrue(watching.next()["written"])
        self.assertEqual((self.folder / "two").read_bytes(), self.folder.link())

    def test_cannot_be_written(self) -> None:
        """An image whose folder is not there is written within a second after it comes."""
        os.symlink("out/image", self.folder / "image")
        watching = self.watch()
        said = watching.next()
        self.assertEqual((said["event"], said["reasons"][0]["name"]), ("waiting", "image"))
        self.assertTrue(watching.is_silent(1.2))
        os.mkdir(self.folder / "out")
        self.assertEqual(watching.next(10)["event"], "linked")
        self.assertEqual(self.folder.image(), self.folder.link())

    def test_pipe(self) -> None:
        """An image that is a pipe nobody reads is waited for, and a signal ends that; one that is read gets all."""
        os.mkfifo(self.folder / "image")
        watching = self.watch()
        self.assertEqual(watching.next()["event"], "waiting")
        self.assertEqual(watching.end(), 0)
        watching = self.watch()
        with open(self.folder / "image", "rb") as file:
            self.assertEqual(file.read(), self.folder.link())
        self.assertEqual(watching.wait_for("linked")["event"], "linked")

    def test_pipe_is_not_emptied(self) -> None:
        """A signal ends the writing of a pipe that is full."""
        os.mkfifo(self.folder / "image")
        self.folder.put("t.ld", SCRIPT.replace(b"*(.tail)", b"*(.tail) . = . + 0x40000;"))
        reader = os.open(self.folder / "image", os.O_RDONLY | os.O_NONBLOCK)
        self.addCleanup(os.close, reader)
        watching = self.watch()
        self.assertTrue(watching.is_silent(1))
        self.assertEqual(watching.end(), 0)  # in time, else it is killed

    def test_map_first(self) -> None:
        """The map is put in place before the image."""
        watching = self.opened("--Map", "map")
        for version in range(2, 12):
            self.folder.renew(1, version)
            self.assertEqual(watching.next()["event"], "linked")
            times = [os.stat(self.folder / name).st_ctime_ns for name in ("map", "image")]  # those of the renames
            self.assertEqual(times, sorted(times))

    def test_folder_anew(self) -> None:
        """A folder of objects that is removed and comes again is watched again."""
        build = self.folder / "build"
        os.mkdir(build)
        os.rename(self.folder / "o1.o", build / "o1.o")
        self.folder.names[1] = "build/o1.o"
        watching = self.opened()
        os.unlink(build / "o1.o")
        os.rmdir(build)
        self.assertEqual(watching.next()["event"], "waiting")
        os.mkdir(build)
        (build / "o1.o").write_bytes(numbered(1, 2, 3))
        watching.wait_for("linked")
        (build / "o1.o").write_bytes(numbered(1, 3, 3))
        watching.wait_for("linked")
        self.assertEqual(self.folder.image(), self.folder.link())
