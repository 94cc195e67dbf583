"""`ldi link` from outside: no input is lost, and old files stay where new ones cannot be written."""
from __future__ import annotations

import os
import resource
import signal
import subprocess
import unittest

from tests.programs import LDI, LIMIT, OutsideTest, needs, needs_root

SCRIPT = "ENTRY(_start) SECTIONS { . = 0x401000; .text : { *(.text .text.*) } /DISCARD/ : { *(.comment .note*) } }"
SOURCE = "void _start(void) { for (;;) ; }\n"
OLD = b"old"


@needs("gcc")
class LdiLinkTest(OutsideTest):
    """A folder with a script and an object, which link."""

    def setUp(self) -> None:
        super().setUp()
        self.write("t.ld", SCRIPT)
        self.compile("a.c", SOURCE)
        self.before = self.files()

    def files(self) -> dict[str, bytes]:
        """The regular files of the folder, by their names, with what they hold."""
        return {path.name: path.read_bytes() for path in self.folder.iterdir() if path.is_file()}

    def link(self, *words: str) -> subprocess.CompletedProcess[str]:
        """Runs `ldi link` with the script and the object."""
        return self.run_program(LDI, "link", "-T", "t.ld", *words, "a.o")

    def link_within(self, most: int, handling: signal.Handlers, *words: str) -> int:
        """The same, where no file may have more than `most` bytes; gives the status."""
        def limit() -> None:
            signal.signal(signal.SIGXFSZ, handling)
            resource.setrlimit(resource.RLIMIT_FSIZE, (most, most))
        return subprocess.run([LDI, "link", "-T", "t.ld", *words, "a.o"], cwd=self.folder, capture_output=True,
                              preexec_fn=limit, timeout=LIMIT, check=False).returncode


class OverInputsTest(LdiLinkTest):
    """An output that is an input, or the other output, is refused before a byte is written."""

    def refused(self, *words: str) -> None:
        """A link with these outputs has status 2, says why, and leaves all files."""
        before = self.files()
        done = self.link(*words)
        self.assertEqual(done.returncode, 2, words)
        self.assertIn("name the same file", done.stderr)
        self.assertEqual(self.files(), before, words)

    def test_an_input_by_any_path(self) -> None:
        """By its name, another path, a link to it, a hard link, or a link to its folder."""
        os.symlink("a.o", self.folder / "link.o")
        os.link(self.folder / "a.o", self.folder / "hard.o")
        os.symlink(".", self.folder / "here")
        for path in "a.o", "./a.o", ".//./a.o", str(self.folder / "a.o"), "link.o", "hard.o", "here/a.o":
            self.refused("-o", path)
            self.refused("-o", "out", "--Map", path)

    def test_the_script(self) -> None:
        """The script, by its name and by a link."""
        os.symlink("t.ld", self.folder / "script")
        for path in "t.ld", "script":
            self.refused("-o", path)
            self.refused("-o", "out", "--Map", path)

    def test_image_and_map(self) -> None:
        """One file for both, which is there or is not, by one name or two."""
        os.symlink("made", self.folder / "link")
        for image, listed in ("made", "made"), ("made", "./made"), ("link", "made"), ("made", "link"):
            self.refused("-o", image, "--Map", listed)
        self.write("made", OLD)
        for image, listed in ("made", "./made"), ("link", "made"), ("made", "link"):
            self.refused("-o", image, "--Map", listed)

    def test_two_devices(self) -> None:
        """What holds nothing is lost by nothing."""
        self.assertEqual(self.link("-o", "/dev/null", "--Map", "/dev/null").returncode, 0)


class OldFilesTest(LdiLinkTest):
    """Where a new file cannot be written, the old ones are whole, and no part of a new one is left."""

    def setUp(self) -> None:
        super().setUp()
        for name in "out", "map":
            self.write(name, OLD)
        self.before = self.files()

    def test_a_limit_of_length(self) -> None:
        """A write fails: status 3."""
        self.assertEqual(self.link_within(100, signal.SIG_IGN, "-o", "out", "--Map", "map"), 3)
        self.assertEqual(self.files(), self.before)

    def test_a_signal(self) -> None:
        """A write kills the program."""
        self.assertEqual(self.link_within(100, signal.SIG_DFL, "-o", "out", "--Map", "map"), -signal.SIGXFSZ)
        self.assertEqual((self.read("out"), self.read("map")), (OLD, OLD))

    def test_a_device_that_is_full(self) -> None:
        """The map is not written either."""
        self.assertEqual(self.link("-o", "/dev/full", "--Map", "map").returncode, 3)
        self.assertEqual(self.files(), self.before)

    @needs_root
    @needs("mount", "umount", "unshare")
    def test_a_full_disk(self) -> None:
        """On a file system without room for a second image."""
        disk = self.folder / "disk"
        disk.mkdir()
        script = ("mount -t tmpfs -o size=16k none disk && cp out map disk && head -c 9000 /dev/zero > disk/rest; "
                  f"{LDI} link -T t.ld -o disk/out --Map disk/map a.o; echo $?; cat disk/out disk/map; ls -A disk")
        done = self.run_program("unshare", "-m", "sh", "-c", script)
        if "denied" in done.stderr or "not permitted" in done.stderr:
            self.skipTest("no file system can be mounted")
        self.assertEqual(done.stdout, "3\noldoldmap\nout\nrest\n", done.stderr)

    def test_behind_a_link(self) -> None:
        """The file that a link leads to is the old one; the link stays."""
        os.symlink("out", self.folder / "link")
        self.assertEqual(self.link_within(100, signal.SIG_IGN, "-o", "link"), 3)
        self.assertEqual(self.read("out"), OLD)
        self.assertEqual(self.link("-o", "link").returncode, 0)
        self.assertTrue((self.folder / "link").is_symlink())
        self.assertTrue(self.read("out").startswith(b"\x7fELF"))

    def test_a_pipe(self) -> None:
        """What is no regular file is written in place."""
        os.mkfifo(self.folder / "pipe")
        with subprocess.Popen(["cat", "pipe"], cwd=self.folder, stdout=subprocess.PIPE) as reader:
            self.assertEqual(self.link("-o", "pipe").returncode, 0)
            piped = reader.communicate(timeout=LIMIT)[0]
        self.assertTrue((self.folder / "pipe").is_fifo())
        self.assertEqual(self.link("-o", "out").returncode, 0)
        self.assertEqual(piped, self.read("out"))

    def test_nothing_else_is_left(self) -> None:
        """After a link the folder has the image and the map, and nothing beside them."""
        self.assertEqual(self.link("-o", "new", "--Map", "listed").returncode, 0)
        self.assertEqual(set(self.files()), {*self.before, "new", "listed"})


class SharedInputTest(OutsideTest):
    """A session whose standard input another program goes on to read."""

    def test_what_is_left_of_a_file(self) -> None:
        """After bytes that begin no command, the other program gets all but at most 8,192 bytes of what follows."""
        commands = b"nothing\n" + bytes(20_000)
        path = self.write("commands", commands)
        with open(path, "rb") as file:
            done = subprocess.run([LDI, "session"], stdin=file, capture_output=True, timeout=LIMIT, check=False)
            rest = os.read(file.fileno(), len(commands))
        self.assertEqual((done.returncode, done.stdout), (2, b"stream\n"))
        self.assertTrue(commands.endswith(rest))
        self.assertLessEqual(len(commands) - 8192, len(rest))


if __name__ == "__main__":
    unittest.main()
