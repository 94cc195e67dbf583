"""`ldi-watch` and what is around it: its folder, the image in other hands, its streams, a `make` above it."""
import fcntl
import os
import pty
import shutil
import signal
import subprocess
import time

from tests.linking import needs
from tests.test_watch_commands import MAKE, FolderTest
from tests.programs import LDI_WATCH
from tests.watching import PATIENCE, Watching, default_signals, numbered, wait_until


class FolderAnewTest(FolderTest):
    """The working folder."""

    def test_removed_and_made_anew(self) -> None:
        """The folder in which it runs is removed and made anew, with other objects: they are linked."""
        inner = self.folder / "inner"
        files = {name: (self.folder / name).read_bytes() for name in ("t.ld", *self.folder.names)}

        def make(version: int) -> None:
            inner.mkdir()
            for name, data in files.items():
                (inner / name).write_bytes(data)
            (inner / "o1.o").write_bytes(numbered(1, version, 3))

        make(1)
        top, self.folder.path = self.folder.path, inner
        self.addCleanup(setattr, self.folder, "path", top)
        watching = self.watch()
        self.assertEqual(watching.next()["event"], "linked")
        for version in (2, 3):
            shutil.rmtree(inner)
            self.assertEqual(watching.wait_for("waiting")["event"], "waiting")
            make(version)
            watching.wait_for("linked")
            self.assertEqual(self.folder.image(), self.folder.link())
        self.folder.renew(2, 4)
        self.assertEqual(watching.wait_for("linked")["after"], ["o2.o"])
        self.assertEqual(self.folder.image(), self.folder.link())
        self.assertEqual((watching.end(), watching.errors), (0, ""))


class OtherHandsTest(FolderTest):
    """An image that others remove or write."""

    def opened(self, *words: str) -> Watching:
        """Starts `ldi-watch` over good files, and waits for the first image."""
        watching = self.watch(*words)
        self.assertEqual(watching.next()["event"], "linked")
        return watching

    def test_removed(self) -> None:
        """An image or a map that is removed is put back."""
        watching = self.opened("--Map", "map")
        for name in ("image", "map"):
            os.unlink(self.folder / name)
            self.assertTrue(watching.next()["written"])
            self.assertTrue((self.folder / name).exists())
            self.assertEqual(self.folder.image(), self.folder.link())

    def test_run(self) -> None:
        """An image that is put back is no new one for --run."""
        watching = self.opened("--run", "echo run >> log")
        self.assertTrue(wait_until((self.folder / "log").exists))
        os.unlink(self.folder / "image")
        self.assertTrue(watching.next()["written"])
        self.assertTrue(watching.is_silent(0.5))
        self.assertEqual((self.folder / "log").read_text(), "run\n")
        self.folder.renew(1, 2)
        watching.next()
        self.assertTrue(wait_until(lambda: (self.folder / "log").read_text() == "run\nrun\n"))

    def test_overwritten(self) -> None:
        """An image that another program writes stays, which is said once; the next change writes it anew."""
        watching = self.opened()
        (self.folder / "image").write_bytes(b"other")
        said = watching.next()
        self.assertEqual((said["event"], said["reasons"][0]["name"]), ("waiting", "image"))
        self.assertIn("another program has written it", said["reasons"][0]["why"])
        self.assertTrue(watching.is_silent(2.2))
        self.assertEqual(self.folder.image(), b"other")
        self.folder.renew(1, 2)
        self.assertTrue(watching.next()["written"])
        self.assertEqual(self.folder.image(), self.folder.link())

    def test_mode(self) -> None:
        """An image that is given another mode is still the one that was put there."""
        watching = self.opened()
        os.chmod(self.folder / "image", 0o700)
        self.assertTrue(watching.is_silent(1.5))

    def test_always_whole(self) -> None:
        """The name of the image is that of a whole image at each moment, and what was there before goes away."""
        watching = self.opened()
        images = {self.folder.image()}
        for version in (2, 3, 2, 3):
            self.folder.renew(1, version)
            expected = self.folder.link()
            images.add(expected)
            seen = set()
            self.assertTrue(wait_until(lambda: (seen.add(self.folder.image()) or self.folder.image() == expected)))
            self.assertLessEqual(seen, images)
            watching.wait_for("linked")
        self.assertTrue(wait_until(lambda: self.folder.left_over() == []))

    def test_left_by_another(self) -> None:
        """What a watch that was killed left beside the image goes when the next one starts; what is in use stays."""
        watching = self.opened()
        os.kill(watching.process.pid, signal.SIGKILL)
        watching.wait()
        left = f".image.{watching.process.pid}.{0:032x}.new"
        (self.folder / left).write_bytes(b"half")
        used = self.folder / f".image.{watching.process.pid}.{1:032x}.new"
        with open(used, "wb") as file:  # of another process, as in another container
            fcntl.flock(file, fcntl.LOCK_EX)
            self.opened()
        self.assertTrue(wait_until(lambda: self.folder.left_over() == [used.name]))


class StreamsTest(FolderTest):
    """Standard streams."""

    def run_in_shell(self, redirection: str) -> subprocess.CompletedProcess[str]:
        """Runs `ldi-watch --once` with its streams as a shell makes them."""
        command = f"'{LDI_WATCH}' --once -T t.ld -o image {' '.join(self.folder.names)} {redirection}"
        return subprocess.run(["/bin/sh", "-c", command], cwd=self.folder.path, capture_output=True, text=True,
                              timeout=PATIENCE)

    def test_closed(self) -> None:
        """Streams that are closed at the start: the image is made, and no file gets their numbers."""
        for redirection in (">&-", ">&- 2>&-", "<&- >&- 2>&-"):
            with self.subTest(redirection):
                (self.folder / "image").unlink(missing_ok=True)
                done = self.run_in_shell(redirection + " --run 'echo said; echo said >&2'")
                self.assertEqual((done.returncode, done.stderr.replace("said\n", "")), (0, ""))
                self.assertEqual(self.folder.image(), self.folder.link())

    def test_cannot_be_written(self) -> None:
        """Standard output that cannot be written: a line, and status 3."""
        done = self.run_in_shell(">/dev/full")
        self.assertEqual((done.returncode, done.stderr), (3, "ldi-watch: standard output: No space left on device\n"))

    def test_dumb_terminal(self) -> None:
        """A terminal without colours gets none."""
        for term, coloured in (("xterm", True), ("dumb", False)):
            ours, theirs = pty.openpty()
            environment = {**{name: value for name, value in os.environ.items() if name != "NO_COLOR"}, "TERM": term}
            subprocess.run([LDI_WATCH, "--once", "-T", "t.ld", "-o", "image", *self.folder.names], cwd=self.folder.path,
                           env=environment, stdout=theirs, timeout=PATIENCE, check=True)
            os.close(theirs)
            self.assertEqual(b"\x1b[" in os.read(ours, 4096), coloured)
            os.close(ours)


class SourcesTest(FolderTest):
    """Which files are sources."""

    def setUp(self) -> None:
        super().setUp()
        for number, name in enumerate(self.folder.names):
            os.rename(self.folder / name, self.folder / f"o{number}.c")

    def runs(self) -> int:
        """How often the command was run."""
        log = self.folder / "log"
        return len(log.read_text().splitlines()) if log.exists() else 0

    def begun(self, *words: str) -> Watching:
        """Starts `ldi-watch` with the command."""
        watching = self.watch("--make", MAKE, *words)
        self.assertEqual(watching.next()["event"], "linked")
        self.assertEqual(self.runs(), 1)
        return watching

    def test_files_of_editors(self) -> None:
        """What editors write beside a source is none."""
        watching = self.begun()
        os.symlink("someone@somewhere.1234:1700000000", self.folder / ".#o1.c")
        for name in (".o1.c", ".o1.c.swp", "#o1.c#", "o1.c~", "4913"):
            (self.folder / name).write_text("1")
        self.assertTrue(watching.is_silent(0.6))
        self.assertEqual(self.runs(), 1)

    def test_default_ones(self) -> None:
        """Sources of C++, and what they include, are among the default ones."""
        watching = self.begun()
        for runs, name in enumerate(("a.cpp", "a.cxx", "a.hpp", "a.inc"), 2):
            self.assertTrue(watching.rests())  # what comes while the command runs is its own
            (self.folder / name).write_text(name)
            self.assertTrue(wait_until(lambda: self.runs() == runs), name)

    def test_behind_links(self) -> None:
        """Sources in a folder that a link leads to; links that lead round in a circle are not followed."""
        elsewhere = self.folder.path.with_name(self.folder.path.name + ".elsewhere")
        os.makedirs(elsewhere / "deep")
        self.addCleanup(shutil.rmtree, elsewhere)
        os.symlink(elsewhere, self.folder / "parts")
        os.symlink("..", elsewhere / "deep" / "round")
        os.symlink(self.folder.path, self.folder / "self")
        os.symlink("/", self.folder / "root")
        self.begun()
        (elsewhere / "deep" / "a.h").write_text("1")
        self.assertTrue(wait_until(lambda: self.runs() == 2))
        (elsewhere / "deep" / "a.h").write_text("2")
        self.assertTrue(wait_until(lambda: self.runs() == 3))

    def test_left_out(self) -> None:
        """A pattern that begins with `!` names files that are no sources, beside the default ones or others."""
        watching = self.begun("--sources", "!made*.h")
        (self.folder / "made1.h").write_text("1")
        self.assertTrue(watching.is_silent(0.6))
        self.assertEqual(self.runs(), 1)
        (self.folder / "other.h").write_text("1")
        self.assertTrue(wait_until(lambda: self.runs() == 2))


class JobserverTest(FolderTest):
    """A `make` above."""

    @needs("make")
    def test_make(self) -> None:
        """--make's `make` runs as many jobs as the one above, with a `+` and without it."""
        (self.folder / "Makefile").write_text(
            "objects: a b c d\n"
            "a b c d: ; @echo begin $@ >> order; for n in $$(seq 100); do "
            "test $$(grep -c begin order) -gt 1 && break; sleep 0.1; done; echo end $@ >> order\n"
        )
        watch = f"{LDI_WATCH} --once -T t.ld -o image {' '.join(self.folder.names)} --make '$(MAKE) objects'"
        for rule in (f"+{watch.replace('$(MAKE)', 'make')}", watch.replace("$(MAKE)", "make"), watch):
            with self.subTest(rule):
                (self.folder / "order").unlink(missing_ok=True)
                (self.folder / "watch.mk").write_text(f"watch: ; @{rule}\n".replace("@+", "+@"))
                done = subprocess.run(["make", "-s", "-j4", "-f", "watch.mk"], cwd=self.folder.path, text=True,
                                      capture_output=True, timeout=PATIENCE, preexec_fn=default_signals)
                self.assertEqual((done.returncode, done.stderr), (0, ""))
                first = (self.folder / "order").read_text().split()[::2][:2]
                self.assertEqual(first, ["begin", "begin"], "one job after the other")


class LongRunTest(FolderTest):
    """--make's command that does not end."""

    def test_said(self) -> None:
        """After 10 seconds it is said that the command still runs, once."""
        watching = self.watch("--make", "sleep 60")
        begins = time.monotonic()
        said = watching.next()
        self.assertGreater(time.monotonic() - begins, 9)
        self.assertEqual(said["reasons"], [{"name": "`sleep 60`", "why": "it still runs after 10 s"}])
        self.assertTrue(watching.is_silent(1.5))
