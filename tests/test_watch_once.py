"""`ldi-watch --once`: its statuses, its messages, and what it refuses at the start."""
import os
import resource
import stat
import subprocess
import tempfile
import unittest

from tests.programs import LDI_WATCH
from tests.watching import PATIENCE, Folder, numbered, run_once

OUT_OF_MEMORY = """#!/usr/bin/python3
import sys
while line := sys.stdin.buffer.readline():
    words = line.split()
    sys.stdin.buffer.read(int(words[-1]) if words[0] in (b"add", b"script") else 0)
    accepted = "linked 1 0" if words[0] == b"link" else "accepted"
    print("refused 7 0" if words[0] in %r else accepted, flush=True)
"""


class OnceTest(unittest.TestCase):
    """One link."""

    def setUp(self) -> None:
        self.folder = Folder()
        self.addCleanup(self.folder.remove)

    def test_good(self) -> None:
        """Status 0, the image and the map of `ldi link`, with its modes."""
        done = run_once(self.folder, "--Map", "map")
        self.assertEqual((done.returncode, done.stderr), (0, ""))
        self.assertRegex(done.stdout, r"^image: \d+\.\d ms after t\.ld and 3 more\n$")
        self.assertEqual(self.folder.image(), self.folder.link("--Map", "linked.map"))
        self.assertEqual((self.folder / "map").read_bytes(), (self.folder / "linked.map").read_bytes())
        mask = os.umask(0o022)
        os.umask(mask)
        modes = [stat.S_IMODE(os.stat(self.folder / name).st_mode) for name in ("image", "map")]
        self.assertEqual(modes, [0o755 & ~mask, 0o644 & ~mask])

    def test_faults(self) -> None:
        """Status 1, the messages, and the old image."""
        (self.folder / "image").write_bytes(b"old")
        self.folder.put("o1.o", numbered(1, 1, 3, calls="nothing"))
        done = run_once(self.folder)
        self.assertEqual(done.returncode, 1)
        self.assertIn("nothing", done.stdout)
        self.assertIn("1 error, after t.ld and 3 more; the old image stays\n", done.stdout)
        self.assertEqual(self.folder.image(), b"old")

    def test_refused(self) -> None:
        """Status 2 where an object, the script or a file that is too long is refused; no image."""
        self.folder.put("o1.o", b"no object")
        self.assertEqual(run_once(self.folder).returncode, 2)
        self.folder.renew(1, 1)
        with open(self.folder / "o2.o", "wb") as file:
            file.truncate((1 << 26) + 1)
        done = run_once(self.folder)
        self.assertEqual(done.returncode, 2)
        self.assertIn("refused 6 0", done.stdout)
        self.folder.renew(2, 1)
        self.folder.put("t.ld", b"SECTIONS")
        done = run_once(self.folder)
        self.assertEqual(done.returncode, 2)
        self.assertIn("refused 5 2", done.stdout)
        self.assertFalse((self.folder / "image").exists())

    def test_device(self) -> None:
        """Status 3 where a file cannot be read or written."""
        os.unlink(self.folder / "o1.o")
        self.assertEqual(run_once(self.folder).returncode, 3)
        os.mkdir(self.folder / "o1.o")
        self.assertEqual(run_once(self.folder).returncode, 3)
        os.rmdir(self.folder / "o1.o")
        self.folder.renew(1, 1)
        done = run_once(self.folder, "--Map", "nowhere/map")
        self.assertEqual(done.returncode, 3)
        self.assertIn("waiting: nowhere/map: it cannot be written: ", done.stdout)
        self.assertFalse((self.folder / "image").exists())

    def test_memory(self) -> None:
        """Status 4 where memory is refused: to each command, to the script, to the link."""
        for refused in (b"add", b"script", b"link"), (b"script",), (b"link",):
            with self.subTest(refused=refused):
                self.folder.put("ldi", (OUT_OF_MEMORY % (refused,)).encode())
                os.chmod(self.folder / "ldi", 0o755)
                done = run_once(self.folder, env={**os.environ, "LDI": str(self.folder / "ldi")})
                self.assertEqual(done.returncode, 4)
                self.assertIn("refused 7 0", done.stdout)
                self.assertFalse((self.folder / "image").exists())

    def test_own_memory(self) -> None:
        """Status 4 where `ldi-watch` itself gets no memory, and no image."""
        names = [f"big{number}.o" for number in range(8)]
        for name in names:
            with open(self.folder / name, "wb") as file:
                file.truncate(1 << 26)
        limit = 1 << 29
        done = run_once(
            self.folder, names=names, preexec_fn=lambda: resource.setrlimit(resource.RLIMIT_AS, (limit, limit))
        )
        self.assertEqual((done.returncode, done.stderr), (4, "ldi-watch: out of memory\n"))
        self.assertFalse((self.folder / "image").exists())

    def test_characters(self) -> None:
        """Names are written as they are, whatever characters the terminal has."""
        command = [LDI_WATCH, "--once", "-T", "\u20ac.ld", "-o", "image", *self.folder.names]
        done = subprocess.run(command, cwd=self.folder.path, capture_output=True, env={**os.environ, "LC_ALL": "C"})
        self.assertEqual((done.returncode, done.stderr), (3, b""))
        self.assertEqual(done.stdout.decode(), "waiting: \u20ac.ld: it is not there; there is no image yet\n")

    def test_list_is_a_pipe(self) -> None:
        """A list that is a pipe nobody writes is not waited for."""
        os.mkfifo(self.folder / "list")
        done = run_once(self.folder, names=["@list"])
        self.assertEqual(done.returncode, 3)
        self.assertIn("list: it cannot be read: it is no regular file", done.stdout)

    def test_names(self) -> None:
        """Names that a session refuses are said at the start, with status 2."""
        for name in ("my file.o", "caf\xe9.o", "x" * 256, ""):
            done = run_once(self.folder, names=[*self.folder.names, name])
            self.assertEqual((done.returncode, done.stdout), (2, ""))
            self.assertIn("name", done.stderr)
        (self.folder / "list").write_text("o0.o\nmy file.o\n")
        done = run_once(self.folder, names=["@list"])
        self.assertEqual(done.returncode, 2)
        self.assertIn("`my file.o`", done.stderr)
        self.assertEqual(run_once(self.folder, names=["o0.o", "o0.o"]).returncode, 2)

    def test_output_is_an_input(self) -> None:
        """An image that would overwrite an input, or the map, is refused at the start."""
        before = (self.folder / "o1.o").read_bytes()
        self.assertEqual(run_once(self.folder, "--Map", "./o1.o").returncode, 2)
        self.assertEqual(run_once(self.folder, "--Map", "image").returncode, 2)
        for name in ("./o1.o", "image", "map"):
            self.assertEqual(run_once(self.folder, "--Map", "map", "--gdb", name).returncode, 2)
        self.assertEqual((self.folder / "o1.o").read_bytes(), before)

    def test_words(self) -> None:
        """Words that are refused: status 2, and the usage on standard error."""
        for words in (["--map", "m"], ["-e"], ["--once"], ["--orphan-handling=keep"], ["--sources", "*.c"], ["-ox"]):
            done = run_once(self.folder, *words)
            self.assertEqual((done.returncode, done.stdout), (2, ""), words)
            self.assertIn("usage: ldi-watch -T SCRIPT", done.stderr)


class PlaceTest(unittest.TestCase):
    """Where the image is written."""

    def setUp(self) -> None:
        self.folder = Folder()
        self.addCleanup(self.folder.remove)

    def test_mode_stays(self) -> None:
        """An image that is there keeps its mode; a symbolic link stays one."""
        (self.folder / "real").write_bytes(b"old")
        os.chmod(self.folder / "real", 0o700)
        os.symlink("real", self.folder / "image")
        self.assertEqual(run_once(self.folder).returncode, 0)
        self.assertTrue((self.folder / "image").is_symlink())
        self.assertEqual(stat.S_IMODE(os.stat(self.folder / "real").st_mode), 0o700)
        self.assertEqual((self.folder / "real").read_bytes(), self.folder.link())

    def test_in_place(self) -> None:
        """What is no regular file is written in place."""
        os.symlink("/dev/null", self.folder / "image")
        self.assertEqual(run_once(self.folder, "--Map", "/dev/null").returncode, 0)
        self.assertTrue(stat.S_ISCHR(os.stat("/dev/null").st_mode))

    def test_long_names(self) -> None:
        """An image and a map whose names are as long as names can be, and begin alike."""
        for stem in ("x" * 250, "\u20ac" * 83):
            (self.folder / stem).touch()
            image, other = stem + "1", stem + "2"
            words = ["-T", "t.ld", "-o", image, "--Map", other, "--once", *self.folder.names]
            done = subprocess.run([LDI_WATCH, *words], cwd=self.folder.path, capture_output=True, text=True,
                                  timeout=PATIENCE)
            self.assertEqual((done.returncode, done.stderr), (0, ""))
            self.assertEqual((self.folder / image).read_bytes(), self.folder.link("--Map", "linked.map"))
            self.assertEqual((self.folder / other).read_bytes(), (self.folder / "linked.map").read_bytes())
            self.assertEqual(self.folder.left_over(), [])

    def test_full(self) -> None:
        """Where the image cannot be written whole, the old one stays, and nothing beside it."""
        (self.folder / "image").write_bytes(b"old")
        limit = len(self.folder.link()) - 1
        done = run_once(
            self.folder, preexec_fn=lambda: resource.setrlimit(resource.RLIMIT_FSIZE, (limit, limit))
        )
        self.assertEqual(done.returncode, 3)
        self.assertIn("cannot be written", done.stdout)
        self.assertEqual((self.folder.image(), self.folder.left_over()), (b"old", []))

    def test_full_device(self) -> None:
        """What is written in place, and takes nothing: status 3."""
        os.symlink("/dev/full", self.folder / "image")
        done = run_once(self.folder)
        self.assertEqual(done.returncode, 3)
        self.assertIn("waiting: image: it cannot be written: No space left on device", done.stdout)

    @unittest.skipUnless(os.path.isdir("/dev/shm"), "there is no /dev/shm")
    def test_other_device(self) -> None:
        """An image on another device than the objects."""
        with tempfile.TemporaryDirectory(dir="/dev/shm") as other:
            os.symlink(os.path.join(other, "image"), self.folder / "image")
            self.assertEqual(run_once(self.folder).returncode, 0)
            self.assertEqual(os.listdir(other), ["image"])
            self.assertEqual(self.folder.image(), self.folder.link())
