"""`ldi-watch`: the lines for people, and JSON."""
import os
import pty
import subprocess
import time
import unittest

from tests.programs import LDI_WATCH
from tests.test_watch_commands import FolderTest
from tests.watching import PATIENCE, Folder, default_signals, numbered


class TextTest(FolderTest):
    """What people see: the lines of `ldi-watch` without --json."""

    def begin(self) -> None:
        """Starts it, and reads the line of the first image."""
        self.watching = subprocess.Popen([LDI_WATCH, "-T", "t.ld", "-o", "image", *self.folder.names],
                                         cwd=self.folder.path, stdout=subprocess.PIPE, text=True,
                                         preexec_fn=default_signals)
        self.addCleanup(self.end)
        self.assertRegex(self.line(), r"^image: [0-9]+\.[0-9] ms after t\.ld and 3 more$")

    def end(self) -> None:
        """Ends it."""
        self.watching.terminate()
        self.watching.communicate(timeout=PATIENCE)

    def line(self) -> str:
        """The next line."""
        assert self.watching.stdout is not None
        return self.watching.stdout.readline().rstrip("\n")

    def lines(self, last: str) -> list[str]:
        """The next lines, up to one that ends so."""
        found = [self.line()]
        while not found[-1].endswith(last):
            self.assertTrue(found[-1], found)
            found.append(self.line())
        return found

    def calls(self, number: int, *names: str) -> None:
        """Puts an object in place that defines its function, and calls others."""
        text = [f".globl f{number}", '.section .text,"ax"', f"f{number}:", *(f"call {name}" for name in names)]
        subprocess.run(["as", "-o", self.folder / "new", "-"], input="\n".join(text) + "\n", text=True, check=True)
        os.rename(self.folder / "new", self.folder / self.folder.names[number])

    def test_good(self) -> None:
        """A good image."""
        self.begin()
        self.folder.renew(1, 2)
        self.assertRegex(self.line(), r"^image: [0-9]+\.[0-9] ms after o1\.o$")

    def test_refused_and_as_it_was(self) -> None:
        """Refused inputs, and an image that is as it was."""
        self.begin()
        old = (self.folder / "o1.o").read_bytes()
        self.folder.put("o1.o", b"no object")
        first, last = self.lines("the old image stays")
        self.assertRegex(first, r"^o1\.o: .*\[o1\.o: refused 4 1\]$")
        self.assertEqual(last, "refused: o1.o; the old image stays")
        self.folder.put("o1.o", old)
        self.assertRegex(self.line(), r"^image: as it was, [0-9]+\.[0-9] ms after o1\.o$")

    def test_missing(self) -> None:
        """An input that is not there: said once."""
        self.begin()
        os.unlink(self.folder / "o1.o")
        self.assertEqual(self.line(), "waiting: o1.o: it is not there; the old image stays")
        (self.folder / "other").write_text("")
        time.sleep(0.3)
        self.folder.renew(1, 2)
        self.assertRegex(self.line(), r"^image: ")

    def test_order(self) -> None:
        """The oldest errors that stand are first, though their places move; their number is said."""
        self.begin()
        self.calls(2, "old", "f0")
        self.assertEqual([line.partition(" [")[0] for line in self.lines("the old image stays")],
                         ["o2.o: (.text+0x1): undefined reference to `old'",
                          "1 error, after o2.o; the old image stays"])
        self.calls(1, "new", "f2")
        self.calls(2, "f0", "old", "newer")
        found = [self.lines("the old image stays")]
        while not found[-1][-1].startswith("3 errors, "):
            found.append(self.lines("the old image stays"))
        self.assertIn("`old'", found[-1][0])
        self.assertIn("(.text+0x6)", found[-1][0])

    def test_many(self) -> None:
        """Of very many errors some are shown, and how many there are."""
        self.begin()
        self.calls(2, *(f"n{number}" for number in range(100)))
        lines = self.lines("the old image stays")
        self.assertEqual((len(lines), lines[-2:]), (22, ["and 80 more", "100 errors, after o2.o; the old image stays"]))

    def test_no_image_yet(self) -> None:
        """Without an image that is said."""
        self.folder.put("o1.o", numbered(1, 1, 3, calls="nothing"))
        done = subprocess.run([LDI_WATCH, "--once", "-T", "t.ld", "-o", "image", *self.folder.names],
                              cwd=self.folder.path, capture_output=True, text=True, timeout=PATIENCE)
        self.assertEqual(done.returncode, 1)
        self.assertTrue(done.stdout.endswith("1 error, after t.ld and 3 more; there is no image yet\n"), done.stdout)

    def test_json(self) -> None:
        """One object a line, with an event, a time and names."""
        watching = self.watch()
        linked = watching.next()
        self.assertEqual((linked["event"], linked["after"], linked["written"], linked["bytes"]),
                         ("linked", ["t.ld", *self.folder.names], True, len(self.folder.image())))
        self.assertEqual(round(linked["milliseconds"], 3), linked["milliseconds"])
        self.folder.put("o1.o", numbered(1, 1, 3, calls="nothing"))
        faults = watching.next()
        self.assertEqual((faults["event"], faults["count"], faults["after"]), ("faults", 1, ["o1.o"]))
        self.assertTrue(faults["faults"][0]["line"].startswith("F12 o1.o .text "))
        self.assertIn("undefined reference to `nothing'", faults["faults"][0]["message"])
        self.folder.put("o1.o", b"no object")
        refused = watching.next()
        self.assertEqual((refused["event"], [one["name"] for one in refused["inputs"]]), ("refused", ["o1.o"]))
        self.assertEqual(refused["inputs"][0]["line"], "o1.o: refused 4 1")
        os.unlink(self.folder / "o1.o")
        waiting = watching.next()
        self.assertEqual((waiting["event"], waiting["reasons"]),
                         ("waiting", [{"name": "o1.o", "why": "it is not there"}]))
        for one in (linked, faults, refused, waiting):
            self.assertEqual(one["image"], "image")
            self.assertGreater(one["time"], 1e9)


class ColourTest(unittest.TestCase):
    """Colours of the lines."""

    def test_colours(self) -> None:
        """Colours where standard output is a terminal, and not with NO_COLOR."""
        folder = Folder()
        self.addCleanup(folder.remove)
        settings: list[tuple[dict[str, str], bool]] = [({}, True), ({"NO_COLOR": "1"}, False)]
        for setting, coloured in settings:
            ours, theirs = pty.openpty()
            environment = {name: value for name, value in os.environ.items() if name != "NO_COLOR"}
            subprocess.run(
                [LDI_WATCH, "--once", "-T", "t.ld", "-o", "image", *folder.names],
                cwd=folder.path, stdout=theirs, env={**environment, **setting}, timeout=PATIENCE, check=True,
            )
            self.assertEqual(b"\x1b[32mimage" in os.read(ours, 4096), coloured)
            os.close(ours)
            os.close(theirs)
