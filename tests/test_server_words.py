"""Words that name what is another file to each process, or can be read once: a server never makes such a link."""
from __future__ import annotations

import os
import struct

from tests.programs import LD_LDI, SCRIPT, WORDS, ProjectTest


class WordsTest(ProjectTest):
    """Two calls, with other files behind the same words."""

    def setUp(self) -> None:
        """Makes another object, and a script with another address."""
        super().setUp()
        self.put("p/c.o", 2)
        self.write("p/u.ld", SCRIPT.replace("0x401000", "0x501000"))
        self.make("q", 3)

    def addresses(self) -> int:
        """Where the image begins."""
        return int(struct.unpack_from("<Q", self.read("p/image"), 24)[0])

    def by_shell(self, redirected: str, *words: str) -> None:
        """A call with descriptors that the shell opens."""
        done = self.run_program("sh", "-c", f'exec "$@" {redirected}', "sh", LD_LDI, *words, env=self.serving(),
                                cwd="p")
        self.assertEqual(done.returncode, 0, f"{redirected}: {done.stdout}{done.stderr}")

    def assert_numbers(self, *words: str) -> None:
        """The words on descriptors 0 and 3 name an object."""
        for name, number in (("b.o", 1), ("c.o", 2), ("b.o", 1)):
            self.write("p/words", name)
            self.by_shell("< words 3< words", *words)
            self.assertEqual(self.number(), number, words)

    def assert_scripts(self, *words: str) -> None:
        """The scripts on descriptors 0 and 3 have another address."""
        for name, address in (("t.ld", 0x401000), ("u.ld", 0x501000), ("t.ld", 0x401000)):
            self.by_shell(f"< {name} 3< {name}", *words)
            self.assertEqual(self.addresses(), address, words)

    def test_response_file(self) -> None:
        """`@/dev/stdin` and the like."""
        for name in ("/dev/stdin", "/dev/fd/3", "/proc/self/fd/0"):
            self.assert_numbers("-T", "t.ld", "-o", "image", "a.o", f"@{name}")

    def test_response_file_by_pipe(self) -> None:
        """The same, where it is a pipe."""
        for name, number in (("b.o", 1), ("c.o", 2)):
            done = self.serve("-T", "t.ld", "-o", "image", "a.o", "@/dev/stdin", cwd="p", stdin=name)
            self.assertEqual((done.returncode, self.number()), (0, number), done.stderr)

    def test_script(self) -> None:
        """`-T /dev/fd/3`, as a shell's `<(..)` has it."""
        for name in ("/dev/stdin", "/dev/fd/3", "/proc/self/fd/3"):
            self.assert_scripts("-T", name, "-o", "image", "a.o", "b.o")
            self.assert_scripts(f"-T{name}", "-o", "image", "a.o", "b.o")
            self.assert_scripts(f"--script={name}", "-o", "image", "a.o", "b.o")

    def test_script_by_pipe(self) -> None:
        """The same by a pipe, whose writer takes his time."""
        for name, address in (("t.ld", 0x401000), ("u.ld", 0x501000)):
            text = f'{{ sleep 0.3; head -c 50 {name}; sleep 0.3; tail -c +51 {name}; }} | "$@"'
            self.must("sh", "-c", text, "sh", LD_LDI, "-T", "/dev/stdin", "-o", "image", "a.o", "b.o",
                      env=self.serving(), cwd="p")
            self.assertEqual(self.addresses(), address)

    def test_nested(self) -> None:
        """A response file that names such a file, or one that does."""
        self.write("p/one", "-T /dev/fd/3 a.o b.o")
        self.write("p/two", "@one")
        self.assert_scripts("-o", "image", "@one")
        self.assert_scripts("-o", "image", "@two")
        self.write("p/one", "-T t.ld a.o @/dev/stdin")
        self.assert_numbers("-o", "image", "@two")

    def test_object(self) -> None:
        """An object is such a file."""
        for name, number in (("b.o", 1), ("c.o", 2), ("b.o", 1)):
            self.by_shell(f"3< {name}", "-T", "t.ld", "-o", "image", "a.o", "/dev/fd/3")
            self.assertEqual(self.number(), number)

    def test_map(self) -> None:
        """The map goes to such a file, and its own one each time."""
        self.call()
        for _ in range(2):
            for name in ("/dev/stdout", "/dev/fd/3", "/proc/self/fd/3"):
                (self.folder / "p" / "map").unlink(missing_ok=True)
                self.by_shell("> map 3>&1", *WORDS, f"-Map={name}")
                self.assertIn(b"b.o", self.read("p/map"))

    def test_link(self) -> None:
        """A symbolic link leads to such a file."""
        os.symlink("/dev/stdin", self.folder / "p" / "in")
        os.symlink("/proc/self/fd/3", self.folder / "p" / "three")
        for name in ("in", "three"):
            self.assert_scripts("-T", name, "-o", "image", "a.o", "b.o")
            self.assert_numbers("-T", "t.ld", "-o", "image", "a.o", f"@{name}")

    def test_included(self) -> None:
        """A script includes such a file, or names one as an input."""
        self.write("p/i.ld", "INCLUDE /dev/fd/3\n")
        self.assert_scripts("-T", "i.ld", "-o", "image", "a.o", "b.o")
        self.write("p/i.ld", SCRIPT + "INPUT(/dev/fd/3)\n")
        for name, number in (("b.o", 1), ("c.o", 2)):
            self.by_shell(f"3< {name}", "-T", "i.ld", "-o", "image", "a.o")
            self.assertEqual(self.number(), number)

    def test_folder(self) -> None:
        """A folder in which libraries are looked for is such a file; a library of that name is in the next one too."""
        for folder in ("p", "q"):
            self.must("ar", "rcs", "libx.a", "b.o", cwd=folder)
        os.symlink("/dev/fd/3", self.folder / "p" / "three")
        for word in ("-L/dev/fd/3", "-L/proc/self/fd/3", "-Lthree"):
            for folder, number in (("../q", 3), (".", 1), ("../q", 3)):
                self.by_shell(f"3< {folder}", "-T", "t.ld", "-o", "image", word, "-L.", "a.o", "-lx")
                self.assertEqual(self.number(), number, word)
