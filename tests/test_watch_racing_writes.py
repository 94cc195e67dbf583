"""`ldi-watch`: each image is of files that were there together, though they change while it is made.

Changes are made here through another name of a file, in a folder that is not watched, so that no event tells of them.
"""
import os
from collections.abc import Iterable

from tests.session_proxy import put_between, session_between
from tests.test_watch_commands import FolderTest
from tests.watching import SCRIPT, Watching, numbered

MOVED_SCRIPT = SCRIPT.replace(b"0x401000", b"0x801000")


class LooksTest(FolderTest):
    """Changes after the image was asked for, over a script, a list and three objects."""

    def setUp(self) -> None:
        super().setUp()
        os.mkdir(self.folder / "other")
        (self.folder / "list").write_text("o2.o\n")
        for name in ("t.ld", "list", *self.folder.names):
            os.link(self.folder / name, self.folder / "other" / name)
        self.env = {**os.environ, "LDI": session_between(self.folder.path)}

    def opened(self) -> Watching:
        """A watch over a session that is held up, with its first image."""
        watching = Watching(self.folder, names=["o0.o", "o1.o", "@list"], env=self.env)
        self.addCleanup(watching.end)
        self.assertEqual(watching.next()["event"], "linked")
        return watching

    def changes(self) -> Iterable[tuple[str, bytes]]:
        """A change of an object, of the script and of the list."""
        yield "o1.o", numbered(1, 2, 3)
        yield "t.ld", MOVED_SCRIPT
        (self.folder / "o3.o").write_bytes(numbered(3, 1, 3, calls="f0"))
        yield "list", b"o2.o\no3.o\n"

    def linked(self, first: str = "o0.o") -> bytes:
        """The image that `ldi link` makes of the files."""
        return self.folder.link(names=[first, "o1.o", *(self.folder / "list").read_text().split()])

    def test_after_the_image_was_asked_for(self) -> None:
        """A file that changes after the image was asked for: the image is that of before or of after, never of both."""
        watching = self.opened()
        for version, (name, data) in enumerate(self.changes(), 2):
            with self.subTest(name):
                self.folder.put("new", data)
                self.folder.put("next.o", numbered(0, version, 3))
                before = self.linked("next.o")
                put_between(self.folder.path, f"cat new > other/{name}")
                self.folder.renew(0, version)
                seen = []
                while not seen or seen[-1] != self.linked():
                    self.assertTrue(watching.wait_for("linked")["written"])
                    seen.append(self.folder.image())
                self.assertLessEqual(set(seen[:-1]), {before})
                self.assertTrue((self.folder / "between.done").exists())
                self.assertEqual(self.folder.left_over(), [])
                os.unlink(self.folder / "between.done")

    def test_refused_and_back(self) -> None:
        """The image is not said to be as it was, where a file is not any longer what it was made of."""
        watching = self.opened()
        for version, (name, data) in enumerate(self.changes(), 2):
            with self.subTest(name):
                self.folder.put("new", data)
                old = (self.folder / "o0.o").read_bytes()
                self.folder.put("o0.o", b"no object")
                self.assertEqual(watching.wait_for("refused")["event"], "refused")
                self.folder.put("o0.o", old)
                (self.folder / "other" / name).write_bytes(data)
                while self.folder.image() != self.linked():
                    said = watching.wait_for("linked")
                self.assertTrue(said["written"], version)
