"""The links of a server while its inputs change, and what is looked at anew."""
from __future__ import annotations

import os

from tests.session_proxy import put_between, session_between
from tests.serving import WORDS, ServerTest


class CallsTest(ServerTest):
    """Calls of a server whose session is held up."""

    def setUp(self) -> None:
        """The first link."""
        super().setUp()
        self.ldi = session_between(self.folder)
        self.start(env=self.env())
        self.change(2)
        self.assertEqual(self.served().returncode, 0)

    def env(self, **more: str) -> dict[str, str]:
        """The environment of a call, with the session that is held up."""
        return super().env(LDI=self.ldi, **more)

    def change(self, number: int, name: str = "b") -> None:
        """Makes `b.o`, or an object of another name, another."""
        self.compile(f"{name}.c", f"int other = 5; int b(int x) {{ return x + {number}; }}")

    def makes(self, *words: str) -> bytes:
        """A call of the server; gives the image, which is that of the files."""
        done = self.served(*words)
        self.assertEqual(done.returncode, 0, done.stderr)
        image = self.image()
        self.assertEqual(image, self.expected())
        return image

    def test_change_before_the_rename(self) -> None:
        """An object and the script that change after the image was asked for are linked anew."""
        self.change(3, "next")
        self.change(4)
        put_between(self.folder, "mv next.o b.o")
        self.makes()
        self.assertTrue((self.folder / "between.done").exists())
        (self.folder / "between.done").unlink()
        self.change(5)
        put_between(self.folder, "sed 's/0x401000/0x501000/' t.ld > next.ld; mv next.ld t.ld")
        self.makes()
        self.assertIn("0x501000", (self.folder / "t.ld").read_text(encoding="utf-8"))

    def test_same_stamp(self) -> None:
        """A change within a tick, which leaves size and times as they were, is seen by the bytes."""
        for number in (3, 4, 5):
            status = (self.folder / "b.o").stat()
            self.change(number)
            data = (self.folder / "b.o").read_bytes()
            self.assertEqual(len(data), status.st_size)
            self.makes()
            with open(self.folder / "b.o", "r+b") as file:  # in the same inode, right after it was read
                file.write(data.replace(b"\x83\xc0" + bytes([number]), b"\x83\xc0\x21"))
            os.utime(self.folder / "b.o", ns=(status.st_atime_ns, status.st_mtime_ns))
            self.makes()

    def test_words_of_compilers(self) -> None:
        """Words that differ in what has no effect, as gcc's names of passing files."""
        images = {self.makes(f"-plugin-opt=-fresolution=/tmp/{name}", *WORDS) for name in ("one", "other")}
        self.assertEqual(len(images), 1)
