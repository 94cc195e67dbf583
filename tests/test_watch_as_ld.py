"""`ldi-watch` over what `ld.ldi` takes: archives, libraries, GNU ld's options and scripts."""
import os
import signal
import subprocess

from tests.programs import LD_LDI
from tests.test_watch_commands import FolderTest
from tests.watching import PATIENCE, SCRIPT, Watching, numbered, run_once, wait_until
GNU_SCRIPT = b"""OUTPUT_FORMAT("elf64-x86-64")
ENTRY(_start)
INCLUDE memory.ld
SECTIONS {
  .numbers : { *(.numbers) } > rom
  .text : { *(.text .text.*) *(.tail) } > rom
  /DISCARD/ : { *(.comment) }
}
"""
MEMORY = b"MEMORY { rom (rx) : ORIGIN = 0x401000, LENGTH = 1M }\n"


class AsLdTest(FolderTest):
    """A project with an archive and a script of GNU ld."""

    def setUp(self) -> None:
        super().setUp()
        self.folder.put("gnu.ld", GNU_SCRIPT)
        self.folder.put("memory.ld", MEMORY)
        os.mkdir(self.folder / "lib")
        self.archive("lib/libq.a", {"o1.o": numbered(1, 1, 3), "o2.o": numbered(2, 1, 3), "o9.o": numbered(9, 1, 10)})

    def archive(self, name: str, members: dict[str, bytes]) -> None:
        """Makes an archive and puts it in place."""
        with self.subTest("ar"):
            (self.folder / "members").mkdir(exist_ok=True)
            for member, data in members.items():
                (self.folder / "members" / member).write_bytes(data)
            paths = [str(self.folder / "members" / member) for member in members]
            subprocess.run(["ar", "rcD", str(self.folder / "new.a"), *paths], check=True, capture_output=True)
            os.rename(self.folder / "new.a", self.folder / name)

    def by_ld(self, *words: str) -> bytes:
        """The image that `ld.ldi` makes of these words."""
        done = subprocess.run([LD_LDI, "-o", ".ld", *words], cwd=self.folder.path, capture_output=True, text=True,
                              timeout=PATIENCE)
        self.assertEqual(done.returncode, 0, done.stderr)
        return (self.folder / ".ld").read_bytes()

    def begun(self, *words: str, script: str = "gnu.ld") -> Watching:
        """Starts `ldi-watch` with these words, and waits for the image."""
        os.replace(self.folder / script, self.folder / "t.ld")  # the name that Watching gives
        watching = Watching(self.folder, names=list(words))
        self.addCleanup(watching.end)
        self.assertEqual(watching.wait_for("linked")["event"], "linked")
        self.assert_as_ld(*words)
        return watching

    def assert_as_ld(self, *words: str) -> None:
        """The image is that of `ld.ldi`."""
        expected = self.by_ld("-T", "t.ld", *words)
        self.assertTrue(wait_until(lambda: self.folder.image() == expected))

    def test_scripts(self) -> None:
        """Several -T are one script: an edit of each of them is seen."""
        self.folder.put("secs.ld", GNU_SCRIPT.replace(b"INCLUDE memory.ld\n", b""))
        words = ("-T", "secs.ld", "o0.o", "-L", "lib", "-lq")
        watching = self.begun(*words, script="memory.ld")
        self.folder.put("t.ld", MEMORY.replace(b"0x401000", b"0x402000"))
        self.assertEqual(watching.wait_for("linked")["event"], "linked")
        self.assert_as_ld(*words)
        self.folder.put("secs.ld", GNU_SCRIPT.replace(b"INCLUDE memory.ld\n", b"")
                        .replace(b"*(.numbers)", b"*(.numbers) QUAD(7)"))
        self.assertEqual(watching.wait_for("linked")["event"], "linked")
        self.assert_as_ld(*words)

    def test_orphans(self) -> None:
        """Sections that no statement takes: edits by which they change, come and go."""
        gnu = GNU_SCRIPT.replace(b" *(.tail)", b"")
        self.folder.put("gnu.ld", gnu)
        words = ("o0.o", "o1.o", "o2.o")
        watching = self.begun(*words)
        for version in (2, 3, 4):
            self.folder.put("o1.o", numbered(1, version, 3))
            self.assertEqual(watching.wait_for("linked")["after"], ["o1.o"])
            self.assert_as_ld(*words)
        for script in (gnu.replace(b"*(.numbers)", b"*(.tail .numbers)"), gnu.replace(b" *(.text .text.*)", b"")):
            self.folder.put("t.ld", script)
            self.assertEqual(watching.wait_for("linked")["after"], ["t.ld"])
            self.assert_as_ld(*words)

    def test_library(self) -> None:
        """Members of a library: one that changes, one that is needed now, one that is needed no longer."""
        words = ("o0.o", "-L", "lib", "-lq")
        watching = self.begun(*words)
        self.assertNotIn(b"f9\0", self.folder.image())
        for members in ({"o1.o": numbered(1, 2, 3), "o2.o": numbered(2, 1, 3)},
                        {"o1.o": numbered(1, 2, 3, calls="f9"), "o9.o": numbered(9, 1, 10, calls="f0")},
                        {"o1.o": numbered(1, 3, 3, calls="f0"), "o9.o": numbered(9, 1, 10)}):
            self.archive("lib/libq.a", members)
            self.assertEqual(watching.wait_for("linked")["after"], ["lib/libq.a"])
            self.assert_as_ld(*words)

    def test_object_among_them(self) -> None:
        """An object beside a library: other bytes, another size, and a name that another member defines."""
        words = ("o0.o", "--start-group", "-L", "lib", "-lq", "--end-group", "--gc-sections")
        watching = self.begun(*words)
        for data in (numbered(0, 4, 3), numbered(0, 5, 3), numbered(0, 5, 3, calls="f2"), numbered(0, 1, 3)):
            self.folder.put("o0.o", data)
            self.assertEqual(watching.wait_for("linked")["after"], ["o0.o"])
            self.assert_as_ld(*words)

    def test_library_comes_first(self) -> None:
        """A library that comes in a folder that is searched earlier is taken, until it goes."""
        os.mkdir(self.folder / "first")
        words = ("o0.o", "-L", "first", "-L", "lib", "-lq")
        watching = self.begun(*words)
        before = self.folder.image()
        self.archive("first/libq.a", {"o1.o": numbered(1, 7, 3), "o2.o": numbered(2, 7, 3)})
        self.assertIn("first/libq.a", watching.wait_for("linked")["after"])
        self.assert_as_ld(*words)
        os.unlink(self.folder / "first" / "libq.a")
        self.assertTrue(wait_until(lambda: self.folder.image() == before))

    def test_library_away(self) -> None:
        """A library that goes: it is waited for, and the old image stays."""
        words = ("o0.o", "-L", "lib", "-lq")
        watching = self.begun(*words)
        before = self.folder.image()
        os.rename(self.folder / "lib" / "libq.a", self.folder / "lib" / "away")
        self.assertIn("cannot find -lq", watching.wait_for("waiting")["reasons"][0]["why"])
        self.assertEqual(self.folder.image(), before)
        os.rename(self.folder / "lib" / "away", self.folder / "lib" / "libq.a")
        self.assertFalse(watching.wait_for("linked")["written"])

    def test_script(self) -> None:
        """GNU ld's script without an option that `ldi link` has not; it changes, and so does what it includes."""
        words = tuple(self.folder.names)
        watching = self.begun(*words)
        self.folder.put("memory.ld", MEMORY.replace(b"0x401000", b"0x501000"))
        self.assertEqual(watching.wait_for("linked")["after"], ["memory.ld"])
        self.assert_as_ld(*words)
        self.folder.put("t.ld", GNU_SCRIPT.replace(b"*(.tail)", b"*(.tail) end = .;"))
        self.assertEqual(watching.wait_for("linked")["after"], ["t.ld"])
        self.assert_as_ld(*words)
        self.folder.renew(1, 5)
        self.assertEqual(watching.wait_for("linked")["after"], ["o1.o"])
        self.assert_as_ld(*words)

    def test_to_the_profile_and_back(self) -> None:
        """A script of the profile that becomes one of GNU ld, then none, then one of the profile again."""
        watching = self.watch()
        self.assertEqual(watching.next()["event"], "linked")
        self.assertEqual(self.folder.image(), self.folder.link())
        self.folder.put("t.ld", GNU_SCRIPT)
        watching.wait_for("linked")
        self.assert_as_ld(*self.folder.names)
        before = self.folder.image()
        self.folder.put("t.ld", b"SECTIONS")
        self.assertIn("refused 5 2", watching.wait_for("refused")["inputs"][0]["line"])
        self.assertEqual(self.folder.image(), before)
        self.folder.put("t.ld", SCRIPT.replace(b"0x401000", b"0x801000"))
        watching.wait_for("linked")
        self.assertEqual(self.folder.image(), self.folder.link())

    def test_report(self) -> None:
        """What is changed in a script is said at the start, and again when it is another."""
        changed = GNU_SCRIPT.replace(b"*(.numbers)", b"*(REVERSE(SORT_BY_NAME(.numbers)))")
        self.folder.put("t.ld", changed)
        watching = self.watch()
        said = watching.next()
        self.assertEqual((said["event"], said["script"]), ("adapted", "t.ld"))
        self.assertTrue(any("REVERSE" in line for line in said["report"]), said)
        self.assertEqual(watching.next()["event"], "linked")
        self.folder.renew(1, 2)
        self.assertEqual(watching.next()["event"], "linked")
        self.folder.put("t.ld", changed.replace(b"*(.tail)", b"*(REVERSE(SORT_BY_NAME(.tail)))"))
        self.assertEqual(watching.next()["event"], "adapted")

    def test_archive_among_plain_words(self) -> None:
        """An archive among the objects is taken by its members, and so is one that a list names."""
        self.begun("o0.o", "lib/libq.a").end()
        (self.folder / "list").write_text("o0.o\nlib/libq.a\n")
        watching = Watching(self.folder, names=["@list"])
        self.addCleanup(watching.end)
        watching.wait_for("linked")
        self.assert_as_ld("o0.o", "lib/libq.a")
        (self.folder / "list").write_text("o0.o\no1.o\no2.o\n")
        watching.wait_for("linked")
        self.assert_as_ld("o0.o", "o1.o", "o2.o")

    def test_headers_of_the_script(self) -> None:
        """PHDRS, larger pages and a flat image are made after the link, as by `ld.ldi`."""
        segments = GNU_SCRIPT.replace(b"SECTIONS {", b"PHDRS { one PT_LOAD FLAGS(7); }\nSECTIONS {", 1)
        segments = segments.replace(b"> rom", b"> rom :one", 1)
        for script, words in ((segments, ()), (GNU_SCRIPT, ("-z", "max-page-size=0x10000")),
                              (GNU_SCRIPT, ("--oformat=binary",))):
            with self.subTest(words):
                self.folder.put("gnu.ld", script)
                watching = self.begun(*self.folder.names, *words)
                self.folder.renew(1, 5)
                watching.wait_for("linked")
                self.assert_as_ld(*self.folder.names, *words)
                self.folder.renew(1, 1)
                watching.end()

    def test_values_of_symbols(self) -> None:
        """A script whose symbols are those of objects: they move with the code before them."""
        script = GNU_SCRIPT.replace(b"SECTIONS {", b"other = f2;\nSECTIONS {", 1)
        self.folder.put("gnu.ld", script)
        watching = self.begun(*self.folder.names)
        for version in (2, 3, 5):
            self.folder.renew(1, version)
            watching.wait_for("linked")
            self.assert_as_ld(*self.folder.names)

    def test_session_killed(self) -> None:
        """A session that is killed gets all objects again, and the script; the image is not written again."""
        words = ("o0.o", "-L", "lib", "-lq")
        watching = self.begun(*words)
        for data in (numbered(0, 1, 3), numbered(0, 4, 3), numbered(0, 5, 3)):
            os.kill(watching.session(), signal.SIGKILL)
            self.assertEqual(watching.wait_for("restarted")["event"], "restarted")
            self.assertFalse(watching.wait_for("linked")["written"])
            if data != (self.folder / "o0.o").read_bytes():
                self.folder.put("o0.o", data)
                self.assertEqual(watching.wait_for("linked")["after"], ["o0.o"])
            self.assert_as_ld(*words)

    def test_large_archive(self) -> None:
        """An archive of more bytes than an object may have."""
        self.archive("lib/libq.a", {"o1.o": numbered(1, 1, 3), "big": bytes(1 << 26), "o2.o": numbered(2, 1, 3)})
        self.begun("o0.o", "lib/libq.a")

    def test_once(self) -> None:
        """Statuses: 0 a good image, 1 faults, 2 what `ld.ldi` refuses, 3 a library that is not there."""
        self.folder.put("t.ld", GNU_SCRIPT)
        self.assertEqual(run_once(self.folder, names=["o0.o", "-Llib", "-lq"]).returncode, 0)
        done = run_once(self.folder, names=["o0.o", "-Llib"], *())
        self.assertEqual((done.returncode, done.stderr), (1, ""))
        self.assertIn("undefined reference to `f1'", done.stdout)
        done = run_once(self.folder, names=["o0.o", "-lnone"])
        self.assertEqual((done.returncode, done.stderr), (3, ""))
        done = run_once(self.folder, names=["o0.o", "-Llib", "-lq", "--embedded-relocs"])
        self.assertEqual(done.returncode, 2)
        self.assertIn("--embedded-relocs", done.stdout + done.stderr)
        done = run_once(self.folder, "--require-defined=nothing")
        self.assertEqual((done.returncode, done.stderr), (2, ""))
        self.assertIn("nothing", done.stdout)
