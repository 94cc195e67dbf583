"""Build IDs: the note where GNU ld has it, and a hash of the file in it."""
from __future__ import annotations

import hashlib
import struct
import subprocess

from tests.images import read_image
from tests.programs import LD_LDI, OutsideTest, needs
from tests.test_watch_commands import FolderTest
from tests.watching import PATIENCE, Watching, wait_until

SOURCE = "int more(void); int _start(void) { return more() + %d; }\n"
SCRIPT = """ENTRY(_start)
PHDRS { text PT_LOAD; note PT_NOTE; }
SECTIONS { . = 0x400000; .text : { *(.text) } :text .notes : { KEEP(*(.note.*)) } :text :note
           .data : { *(.data) } :text .bss : { *(.bss) *(COMMON) } /DISCARD/ : { *(.comment) *(.eh_frame) } }
"""
NONE = {"LDI_FALLBACK": "none"}
PIECE = 1 << 20
"""The bytes of a piece of the file, as docs/makefiles.md has them."""
KEYS = (0x243F6A8885A308D3, 0x13198A2E03707344, 0xA4093822299F31D0, 0x082EFA98EC4E6C89,
        0x452821E638D01377, 0xBE5466CF34E90C6C, 0xC0AC29B7C97C50DD, 0x3F84D5B5B5470917)
"""The digits of pi."""
WORD = (1 << 64) - 1


def note_of(image: bytes, name: str = ".notes") -> bytes:
    """The note of an image."""
    found = read_image(image).section(name).data
    return found or b""


def quick(piece: bytes) -> bytes:
    """The hash of a piece: each two words are multiplied into two of four, after the text its end and its bits."""
    text = piece + b"\x80" + bytes((55 - len(piece)) % 64) + struct.pack("<Q", len(piece) * 8)
    state = [key ^ WORD for key in KEYS[:4]]
    words = struct.unpack(f"<{len(text) // 8}Q", text)
    for number in range(0, len(words), 2):
        one, other, at = words[number], words[number + 1], number % 4
        key, more = KEYS[number % 8], KEYS[number % 8 + 1]
        products = ((one ^ key) * (other ^ state[at]), (other ^ more) * (one ^ state[at + 1]))
        state[at : at + 2] = [(product & WORD) ^ (product >> 64) for product in products]
    return struct.pack("<4Q", *state)


def hash_of(image: bytes, kind: str = "sha1") -> bytes:
    """The hash of an image, the ID counted as zeros."""
    note = note_of(image)
    at = image.index(note) + 16
    zeros = image[:at] + bytes(len(note) - 16) + image[at + len(note) - 16:]
    pieces = [quick(zeros[start : start + PIECE]) for start in range(0, len(zeros), PIECE)]
    return hashlib.new(kind, b"".join(pieces)).digest()


@needs("ld.bfd")
class BuildIdTest(OutsideTest):
    """Links with `--build-id`."""

    def setUp(self) -> None:
        """Two objects."""
        super().setUp()
        self.write("t.ld", SCRIPT)
        self.compile("a.c", SOURCE % 1, "-Os")
        self.compile("b.c", "int more(void) { return 7; }\n", "-Os")

    def test_beside_gnu_ld(self) -> None:
        """Sections, program headers and the note but for its hash are GNU ld's; so with `--gc-sections`."""
        for words in (["--build-id"], ["--build-id=sha1"], ["--build-id=md5"], ["--build-id=uuid"],
                      ["--build-id=0x01-ab:cd"], ["--build-id=0x01", "--build-id=none"],
                      ["--build-id", "--gc-sections"], ["--build-id=fast"]):
            words = [*words, "-T", "t.ld", "a.o", "b.o"]
            done = self.links(*words, "-o", "own", env=NONE)
            self.must("ld.bfd", *words, "-o", "gnu")
            own, gnu = (read_image(self.read(name)) for name in ("own", "gnu"))
            self.assertEqual([one[:3] for one in own.places()], [one[:3] for one in gnu.places()], words)
            if any(one[0] == ".notes" for one in gnu.places()):
                self.assertEqual(own.segments, gnu.segments, words)
            unknown = "ld.ldi: warning: unrecognized --build-id style ignored\n" if "fast" in words[0] else ""
            self.assertEqual(done.stderr, unknown)
            size = 16 if "0x01-ab:cd" not in words[0] else None
            for one, other in zip(own.places(), gnu.places()):
                self.assertEqual((one[3] or b"")[:size], (other[3] or b"")[:size])

    def test_hash(self) -> None:
        """The ID is the hash of the file with zeros in its place, and another one where anything is another."""
        for kind in ("sha1", "md5"):
            words = [f"--build-id={kind}", "-T", "t.ld", "a.o", "b.o"]
            self.links(*words, "-o", "own")
            first = self.read("own")
            self.assertEqual(note_of(first)[16:], hash_of(first, kind))
            self.links(*words, "-o", "own")
            self.assertEqual(self.read("own"), first)
            self.links(*words, "--defsym=more_of_it=5", "-o", "own")
            self.assertNotEqual(note_of(self.read("own")), note_of(first))
        self.write("large.c", "char large[1700000] = {1}; int more(void) { return large[3]; }\n")
        self.must("gcc", "-O2", "-fno-pic", "-fno-asynchronous-unwind-tables", "-c", "large.c")
        self.links("--build-id", "-T", "t.ld", "a.o", "large.o", "-o", "own")
        self.assertEqual(note_of(self.read("own"))[16:], hash_of(self.read("own")))

    def test_random(self) -> None:
        """`uuid` is another one in each link."""
        words = ["--build-id=uuid", "-T", "t.ld", "a.o", "b.o", "-o", "own"]
        found = set()
        for _ in range(3):
            self.links(*words)
            found.add(note_of(self.read("own")))
        self.assertEqual(len(found), 3)

    def test_default_script(self) -> None:
        """GNU ld's default script places the note, which readers of notes find."""
        self.links("--build-id", "a.o", "b.o", "-o", "own", env=NONE)
        self.must("ld.bfd", "--build-id", "a.o", "b.o", "-o", "gnu")
        own, gnu = (read_image(self.read(name)) for name in ("own", "gnu"))
        self.assertEqual([one[:3] for one in own.places()], [one[:3] for one in gnu.places()])
        found = note_of(self.read("own"), ".note.gnu.build-id")[16:].hex()
        self.assertIn(f"Build ID: {found}", self.must("readelf", "-n", "own"))
        headers = self.must("readelf", "-SW", "own").splitlines()
        self.assertIn("NOTE", next(line for line in headers if "build-id" in line))

    def test_orphan(self) -> None:
        """A note that no statement takes is where GNU ld places it; `--orphan-handling` says what it says of others."""
        self.write("o.ld", "SECTIONS { . = 0x400000; .text : { *(.text) } .data : { *(.data) } }")
        words = ["--build-id", "-e", "_start", "-T", "o.ld", "a.o", "b.o"]
        done = self.links(*words, "--orphan-handling=warn", "-o", "own", env=NONE)
        self.assertIn("warning: orphan section `.note.gnu.build-id' from `a.o' being placed", done.stderr)
        self.must("ld.bfd", *words, "-o", "gnu")
        own, gnu = (read_image(self.read(name)) for name in ("own", "gnu"))
        self.assertEqual([one[:3] for one in own.places()], [one[:3] for one in gnu.places()])
        self.assertEqual(note_of(self.read("own"), ".note.gnu.build-id")[:16],
                         note_of(self.read("gnu"), ".note.gnu.build-id")[:16])
        for how, status in (("error", 1), ("discard", 0)):
            done = self.ld(*words, f"--orphan-handling={how}", "-o", "own", env=NONE)
            self.assertEqual(done.returncode, status, done.stderr)
        self.assertIn("--build-id: no statement takes .note.gnu.build-id", done.stderr)

    def test_none(self) -> None:
        """A flat binary has none, as GNU ld's; where the script has no place for the note, a line says so."""
        self.links("--build-id", "-T", "t.ld", "--oformat=binary", "a.o", "b.o", "-o", "own", env=NONE)
        self.must("ld.bfd", "--build-id", "-T", "t.ld", "--oformat=binary", "a.o", "b.o", "-o", "gnu")
        self.assertEqual(self.read("own"), self.read("gnu"))
        discarded = SCRIPT.replace("KEEP(*(.note.*))", "").replace("*(.comment)", "*(.comment) *(.note.*)")
        self.write("d.ld", discarded)
        done = self.links("--build-id", "-T", "d.ld", "a.o", "b.o", "-o", "own", env=NONE)
        self.assertEqual(done.stderr, "ld.ldi: --build-id: the script discards .note.gnu.build-id, so the image has no "
                                      "build ID\n")
        self.must("ld.bfd", "--build-id", "-T", "d.ld", "a.o", "b.o", "-o", "gnu")
        self.assertEqual(read_image(self.read("own")).places(), read_image(self.read("gnu")).places())

    def test_later_calls(self) -> None:
        """A server's later calls give the bytes of a link from scratch: nothing changed, alike, longer, as it was."""
        words = ["--build-id", "-T", "t.ld", "a.o", "b.o"]
        for text in (SOURCE % 1, SOURCE % 1, SOURCE % 2, SOURCE % 1, "int x = 5;\n" + SOURCE % 3, SOURCE % 1):
            self.compile("a.c", text)
            self.serves(*words, "-o", "own", env=NONE)
            self.links(*words, "-o", "scratch", env=NONE)
            self.assertEqual(self.read("own"), self.read("scratch"))
        self.assertEqual(self.calls(), 5)


class WatchBuildIdTest(FolderTest):
    """`ldi-watch` with `--build-id`."""

    def test_edits(self) -> None:
        """After each edit the image is that of `ld.ldi`."""
        self.folder.put("t.ld", SCRIPT.replace("*(.text)", "*(.numbers) *(.text) *(.tail)").encode())
        words = ["--build-id", "o0.o", "o1.o", "o2.o"]
        watching = Watching(self.folder, names=words)
        self.addCleanup(watching.end)
        for version in (2, 3, 4, 5):
            watching.wait_for("linked")
            done = subprocess.run([LD_LDI, "-T", "t.ld", *words, "-o", "once"], cwd=self.folder.path, check=True,
                                  capture_output=True, text=True, timeout=PATIENCE)
            self.assertEqual(done.stderr, "")
            expected = (self.folder / "once").read_bytes()
            self.assertTrue(wait_until(lambda expected=expected: self.folder.image() == expected, 5))
            self.folder.renew(1, version)
