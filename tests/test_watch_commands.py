"""`ldi-watch`: the command that makes the objects, the one that runs after each image, and lists of objects."""
import os
import time
import unittest

from tests.watching import Folder, Watching, numbered, run_once, wait_until

MAKE = "echo run >> log; for name in o0 o1 o2; do cmp -s $name.c $name.o || cp $name.c $name.o; done"
"""A command that makes each object, a copy of its source here, that is not the source's."""


WAIT = "echo wait >> waits; while [ -e waits ] && [ ! -e go ]; do sleep 0.05; done; rm -f go"
"""What has a command wait until `let_go`; `waits` says how often it has."""


class FolderTest(unittest.TestCase):
    """A test with a folder."""

    def setUp(self) -> None:
        self.folder = Folder()
        self.addCleanup(self.folder.remove)

    def watch(self, *words: str, names: list[str] | None = None) -> Watching:
        """Starts `ldi-watch`, which is ended after the test."""
        watching = Watching(self.folder, *words, names=names)
        self.addCleanup(watching.end)
        return watching


class GdbTest(FolderTest):
    """--gdb."""

    def test_script_of_each_image(self) -> None:
        """The script for gdb names each object, and is written anew with each image."""
        watching = self.watch("--gdb", "image.gdb")
        self.assertEqual(watching.next()["event"], "linked")
        script = self.folder / "image.gdb"
        first = script.read_text()
        for name in self.folder.names:
            self.assertIn(name, first)
        script.unlink()
        self.folder.put(self.folder.names[1], numbered(1, 2, 3))
        self.assertEqual(watching.next()["event"], "linked")
        self.assertTrue(script.exists())


class MakeTest(FolderTest):
    """--make and --sources."""

    def setUp(self) -> None:
        super().setUp()
        for number, name in enumerate(self.folder.names):
            os.unlink(self.folder / name)
            self.source(number, 1)

    def source(self, number: int, version: int) -> None:
        """Puts a source in place."""
        self.folder.put(f"o{number}.c", numbered(number, version, 3))

    def runs(self) -> int:
        """How often the command was run."""
        log = self.folder / "log"
        return len(log.read_text().splitlines()) if log.exists() else 0

    def waits(self) -> int:
        """How often the command has begun to wait."""
        waits = self.folder / "waits"
        return len(waits.read_text().splitlines()) if waits.exists() else 0

    def let_go(self) -> None:
        """Has the command that waits go on."""
        (self.folder / "go").touch()
        self.assertTrue(wait_until(lambda: not (self.folder / "go").exists()))

    def test_changes(self) -> None:
        """The command is run at the start, and once after a change of a source; never without one."""
        watching = self.watch("--make", MAKE)
        self.assertEqual(watching.next()["event"], "linked")
        self.assertEqual(self.runs(), 1)
        self.source(1, 2)
        self.assertEqual(watching.next()["after"], ["o1.o"])
        self.assertEqual(self.folder.image(), self.folder.link())
        (self.folder / "note.txt").write_text("no source")
        os.utime(self.folder / "o2.c")
        self.assertTrue(watching.is_silent(0.6))
        self.assertEqual(self.runs(), 2)

    def test_failed(self) -> None:
        """A command that fails is not run again without a change; no image while it has failed; errors are passed."""
        watching = self.watch("--make", f"{MAKE}; test ! -e broken || {{ echo broken >&2; exit 3; }}")
        self.assertEqual(watching.next()["event"], "linked")
        before = self.folder.image()
        (self.folder / "broken").write_text("")
        self.source(1, 2)
        self.assertIn("status 3", watching.next()["reasons"][0]["why"])
        self.assertTrue(watching.is_silent(1.2))
        self.assertEqual((self.runs(), self.folder.image()), (2, before))
        os.unlink(self.folder / "broken")
        self.source(1, 3)
        self.assertEqual(watching.next()["event"], "linked")
        self.assertEqual(self.folder.image(), self.folder.link())
        watching.end()
        self.assertEqual(watching.errors, "broken\n")

    def assert_runs_once(self, watching: Watching) -> None:
        """A change of a source leads to one run, but for those that come after a pause, which is longer each time."""
        self.assertTrue(watching.rests(0.6))
        self.assertLessEqual(self.runs(), 4)
        for version in range(2, 7):
            runs = self.runs()
            self.source(1, version)
            watching.wait_for("linked")
            self.assertTrue(watching.rests(0.6))
            if self.runs() == runs + 1:
                return
        self.fail("it leads to more than one")

    def test_own_files(self) -> None:
        """What the command itself writes leads to no other run."""
        (self.folder / "other.h").write_text("0")
        watching = self.watch("--make", f"{MAKE}; date +%N > made.h; echo > other.h")
        self.assertEqual(watching.next()["event"], "linked")
        self.assert_runs_once(watching)

    def test_own_files_that_change(self) -> None:
        """A source that the command writes anew each time is known as its own after some runs."""
        (self.folder / "made.h").write_text("0")
        watching = self.watch("--make", f"{MAKE}; date +%N > made.h")
        self.assertEqual(watching.next()["event"], "linked")
        self.assert_runs_once(watching)

    def test_saved_meanwhile(self) -> None:
        """A source that is saved while the command runs leads to another run after it, and not at once."""
        watching = self.watch("--make", f"echo begin >> order; {MAKE}; {WAIT}; echo end >> order")
        self.assertTrue(wait_until(lambda: self.waits() == 1))
        self.source(2, 5)
        self.let_go()
        self.assertTrue(wait_until(lambda: self.waits() == 2))
        self.let_go()
        self.assertEqual(watching.next()["event"], "linked")
        self.assertEqual(self.folder.image(), self.folder.link())
        self.assertEqual((self.folder / "o2.o").read_bytes(), numbered(2, 5, 3))
        self.assertEqual((self.folder / "order").read_text().split(), ["begin", "end"] * 2)

    def test_saved_in_each_run(self) -> None:
        """A source that is saved in each of six runs is built each time, and the last save stands."""
        watching = self.watch("--make", f"{MAKE}; {WAIT}")
        for version in range(2, 8):
            self.assertTrue(wait_until(lambda run=version - 1: self.waits() == run))
            self.source(1, version)
            self.let_go()
        self.assertTrue(wait_until(lambda: self.waits() == 7))
        self.let_go()
        said = watching.wait_for("waiting")
        while said["reasons"][0]["name"] != "o1.c":  # the command that waits may be said to run for long
            said = watching.wait_for("waiting")
        self.assertIn("--sources '!o1.c'", said["reasons"][0]["why"])
        self.assertTrue(wait_until(lambda: (self.folder / "o1.o").read_bytes() == numbered(1, 7, 3)))
        self.assertTrue(wait_until(lambda: self.folder.image() == self.folder.link()))

    def test_saved_and_put_back(self) -> None:
        """A source that has other bytes while the command runs, and its old ones when it ends, is built once more."""
        watching = self.watch("--make", f"{MAKE}; {WAIT}")
        self.assertTrue(wait_until(lambda: self.waits() == 1))
        self.source(1, 2)
        time.sleep(2)  # until the watch has read it
        self.source(1, 1)
        self.let_go()
        self.assertTrue(wait_until(lambda: self.waits() == 2))
        self.let_go()
        self.assertEqual(watching.next()["event"], "linked")
        self.assertEqual(self.folder.image(), self.folder.link())

    def test_back_meanwhile(self) -> None:
        """A source that was removed, and comes again while the command runs, is no file of the command's."""
        (self.folder / "other.h").write_text("1")
        watching = self.watch("--make", f"{MAKE}; cat other.h >> seen 2> /dev/null; {WAIT}")
        self.assertTrue(wait_until(lambda: self.waits() == 1))
        self.let_go()
        self.assertEqual(watching.next()["event"], "linked")
        os.unlink(self.folder / "other.h")
        self.assertTrue(wait_until(lambda: self.waits() == 2))
        (self.folder / "other.h").write_text("2")
        self.let_go()
        self.assertTrue(wait_until(lambda: self.waits() == 3))
        self.let_go()
        self.assertTrue((self.folder / "seen").read_text().endswith("2"))

    def test_outputs_are_no_sources(self) -> None:
        """What is written of a link is no source, whatever its name."""
        watching = self.watch("--make", MAKE, "--Map", "map.h", "--gdb", "gdb.h")
        self.assertEqual(watching.next()["event"], "linked")
        self.source(1, 2)
        self.assertEqual(watching.next()["event"], "linked")
        self.assertTrue(watching.is_silent(0.5))
        self.assertEqual(self.runs(), 2)

    def test_patterns(self) -> None:
        """--sources names others than the default ones, in folders below too, that come later."""
        watching = self.watch("--make", MAKE, "--sources", "*.x", "y*.z")
        self.assertEqual(watching.next()["event"], "linked")
        self.source(1, 2)
        time.sleep(0.2)
        self.assertEqual(self.runs(), 1)
        os.makedirs(self.folder / "below" / "it")
        (self.folder / "below" / "it" / "a.x").write_text("1")
        self.assertEqual(watching.next()["event"], "linked")
        (self.folder / "below" / "it" / "a.x").write_text("2")
        self.assertTrue(wait_until(lambda: self.runs() == 3))

    def test_once(self) -> None:
        """With --once a command that fails ends it with 1, and without an image; a good one with 0."""
        done = run_once(self.folder, "--make", "echo no >&2; exit 5")
        self.assertEqual((done.returncode, done.stderr), (1, "no\n"))
        self.assertFalse((self.folder / "image").exists())
        self.assertEqual(run_once(self.folder, "--make", MAKE).returncode, 0)
        self.assertEqual(self.folder.image(), self.folder.link())


class RunTest(FolderTest):
    """--run."""

    def test_ended_first(self) -> None:
        """What runs is ended before the next is started; a new image starts it, and nothing else does."""
        watching = self.watch("--run", "echo $$ >> log; trap 'echo end >> order; exit' TERM; echo begin >> order; "
                                       "while :; do sleep 0.05; done")
        order = self.folder / "order"
        self.assertEqual(watching.next()["event"], "linked")
        self.assertTrue(wait_until(order.exists))
        self.folder.renew(1, 1)
        self.folder.renew(1, 2)
        self.assertEqual(watching.next()["event"], "linked")
        self.assertTrue(wait_until(lambda: order.read_text().split() == ["begin", "end", "begin"]))
        watching.end()
        self.assertEqual(order.read_text().split(), ["begin", "end"] * 2)

    def test_image(self) -> None:
        """It finds the new image; with --once its end is waited for."""
        self.assertEqual(run_once(self.folder, "--run", "sleep 0.2; cp image copy").returncode, 0)
        self.assertEqual((self.folder / "copy").read_bytes(), self.folder.link())

    def test_stubborn(self) -> None:
        """What does not end on SIGTERM is killed."""
        watching = self.watch("--run", "trap '' TERM; echo 1 > log; while :; do sleep 1; done")
        self.assertTrue(wait_until((self.folder / "log").exists))
        child, = set(watching.children()) - {watching.session()}
        self.assertEqual(watching.end(), 0)
        self.assertFalse(os.path.exists(f"/proc/{child}"))


    def test_signal_while_it_is_ended(self) -> None:
        """A signal that comes while it is waited for ends it all the same."""
        watching = self.watch("--run", "trap '' TERM; echo $$ >> log; while :; do sleep 0.1; done")
        log = self.folder / "log"
        self.assertTrue(wait_until(lambda: log.exists() and log.read_text().endswith("\n")))
        self.folder.renew(1, 2)
        watching.wait_for("linked")
        watching.wait_for("linked")
        time.sleep(0.3)
        self.assertEqual(watching.end(), 0)
        for child in log.read_text().split():
            self.assertFalse(os.path.exists(f"/proc/{child}"))


class ListTest(FolderTest):
    """@LIST."""

    def listed(self, *names: str) -> None:
        """Writes the list in place."""
        self.folder.put("list", "".join(f"{name}\n" for name in names).encode())

    def test_changes(self) -> None:
        """Objects that come, go and move."""
        names = self.folder.names
        for number in range(3, 6):
            (self.folder / f"o{number}.o").write_bytes(numbered(number, 1, 3, calls="f0"))
        self.listed(*names)
        watching = self.watch(names=["@list"])
        self.assertEqual(watching.next()["event"], "linked")
        for names in (["o2.o", "o0.o", "o1.o"], ["o2.o", "o0.o", "o3.o", "o1.o"], ["o5.o", *names], names):
            self.listed(*names)
            self.assertEqual(watching.next()["after"][0], "list")
            self.assertEqual(self.folder.image(), self.folder.link(names=names))
        (self.folder / "list").write_text("o1.o\no0.o\no2.o\n")
        watching.wait_for("linked")
        self.assertEqual(self.folder.image(), self.folder.link(names=["o1.o", "o0.o", "o2.o"]))

    def test_bad_list(self) -> None:
        """A list with a name that is refused, one that goes, and one with an object that is not there."""
        self.listed(*self.folder.names)
        watching = self.watch(names=["@list"])
        self.assertEqual(watching.next()["event"], "linked")
        before = self.folder.image()
        self.listed(*self.folder.names, "my file.o")
        self.assertEqual(watching.next()["event"], "refused")
        os.unlink(self.folder / "list")
        self.assertEqual(watching.next()["reasons"][0]["name"], "list")
        self.listed(*self.folder.names, "none.o")
        self.assertEqual(watching.next()["reasons"][0]["name"], "none.o")
        self.assertEqual(self.folder.image(), before)
        self.listed(*reversed(self.folder.names))
        self.assertEqual(watching.next()["event"], "linked")
        self.assertEqual(self.folder.image(), self.folder.link(names=self.folder.names[::-1]))

    def test_output_in_list(self) -> None:
        """A list that gets the name of the image, or another name of it, is refused, and the file stays."""
        self.listed(*self.folder.names)
        watching = self.watch("--Map", "map", names=["@list"])
        self.assertEqual(watching.next()["event"], "linked")
        self.folder.put("map", numbered(7, 1, 3, calls="f0"))
        before = (self.folder / "map").read_bytes()
        self.listed(*self.folder.names, "./map")
        said = watching.next()
        self.assertEqual((said["event"], said["inputs"][0]["name"]), ("refused", "list"))
        self.folder.renew(1, 2)
        self.assertTrue(watching.is_silent(0.5))
        self.assertEqual((self.folder / "map").read_bytes(), before)
        self.listed(*self.folder.names)
        self.assertEqual(watching.next()["event"], "linked")
