"""A call whose working folder, or whose mounts, are others than those of the server: its image is of its own files."""
from __future__ import annotations

import os
import shutil
import subprocess
import unittest

from tests.programs import LD_LDI, LIMIT, WORDS, ProjectTest, needs, needs_root


class FolderTest(ProjectTest):
    """The working folder is another one of the same name."""

    def test_replaced(self) -> None:
        """The folder is renamed, and a copy stands in its place."""
        self.call()
        self.assertEqual(self.number(), 1)
        os.rename(self.folder / "p", self.folder / "p.old")
        shutil.copytree(self.folder / "p.old", self.folder / "p")
        self.put("p/b.o", 2)
        self.call()
        self.assertEqual((self.number(), self.number("p.old/image")), (2, 1))

    def test_swapped(self) -> None:
        """Two folders change names back and forth between calls."""
        self.make("q", 10)
        for number in range(2, 6):
            self.call()
            for before, after in (("p", "r"), ("q", "p"), ("r", "q")):
                os.rename(self.folder / before, self.folder / after)
            self.put("p/b.o", number)
            self.call()
            self.assertEqual(self.number(), number)

    def test_behind_link(self) -> None:
        """The folder is a symbolic link, which leads elsewhere now."""
        self.make("q", 2)
        os.symlink("p", self.folder / "link")
        self.call(cwd="link")
        os.unlink(self.folder / "link")
        os.symlink("q", self.folder / "link")
        self.call(cwd="link")
        self.assertEqual((self.number(), self.number("q/image")), (1, 2))

    def test_absolute(self) -> None:
        """All names are absolute, and the call comes from a folder of the old name."""
        words = [str(self.folder / "p" / word) if "." in word or word == "image" else word for word in WORDS]
        (self.folder / "w").mkdir()
        self.call(*words, cwd="w")
        os.rename(self.folder / "w", self.folder / "w.old")
        (self.folder / "w").mkdir()
        self.put("p/b.o", 2)
        self.call(*words, cwd="w")
        self.assertEqual(self.number(), 2)


@needs("unshare", "mount")
class MountTest(ProjectTest):
    """Other files stand under the same names, by a mount."""

    def setUp(self) -> None:
        """Makes another project."""
        super().setUp()
        self.make("q", 2)
        (self.folder / "r").mkdir()

    def shell(self, text: str, *words: str) -> None:
        """Runs a shell's text in a mount namespace of its own; `"$@"` is a call with these words."""
        done = subprocess.run(["unshare", "-m", "sh", "-ec", text, "sh", LD_LDI, *(words or WORDS)], cwd=self.folder,
                              env=self.env(**self.serving()), capture_output=True, text=True, timeout=LIMIT,
                              check=False, stdin=subprocess.DEVNULL)
        if "unshare" in done.stderr or "mount:" in done.stderr:
            raise unittest.SkipTest(done.stderr.strip())
        self.assertEqual(done.returncode, 0, done.stderr)

    @needs_root
    def test_mounted_over(self) -> None:
        """A folder is mounted over the one of the server, in the same namespace."""
        self.shell('(cd p; "$@"); mount --bind q p; cd p; "$@"')
        self.assertEqual((self.number("p/image"), self.number("q/image")), (1, 2))

    @needs_root
    def test_mounted_over_part(self) -> None:
        """The folder is mounted over itself, which hides what is mounted in it."""
        self.make("p/sub", 3)
        words = [word.replace("b.o", "sub/b.o") for word in WORDS]
        self.shell('mount --bind q p/sub; (cd p; "$@"); mount --bind p p; cd p; "$@"', *words)
        self.assertEqual(self.number("p/image"), 3)

    @needs_root
    def test_namespace(self) -> None:
        """A call comes from another mount namespace, with relative names."""
        (self.folder / "o").mkdir()
        for words in (WORDS, [word.replace("image", "../o/image") for word in WORDS]):
            self.call(*words)
            self.shell('mount --bind q p; cd p; "$@"', *words)
        self.assertEqual((self.number("p/image"), self.number("q/image")), (1, 2))
        self.assertEqual(self.number("o/image"), 2)

    @needs_root
    def test_namespace_absolute(self) -> None:
        """The same with absolute names of the inputs, from a folder that is the same in both."""
        words = [str(self.folder / "p" / word) if "." in word else word for word in WORDS]
        (self.folder / "w").mkdir()
        for _ in range(2):
            self.call(*words, cwd="w")
            self.assertEqual(self.number("w/image"), 1)
            self.shell('mount --bind q p; cd w; "$@"', *words)
            self.assertEqual(self.number("w/image"), 2)

    @needs_root
    def test_root(self) -> None:
        """A call comes from another root."""
        words = [str(self.folder / "p" / word) if "." in word else word for word in WORDS]
        (self.folder / "w").mkdir()
        self.shell('(cd w; "$@"); mount --rbind / r; mount --bind q r"$PWD"/p; cd w; exec chroot "$OLDPWD"/r sh -ec '
                   '"cd $PWD; exec \\"\\$@\\"" sh "$@"', *words)
        self.assertEqual(self.number("w/image"), 2)
