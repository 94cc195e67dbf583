"""`ldi-watch` as `make install` puts it there."""
import os
import shutil
import subprocess
import tempfile
import unittest

from tests.programs import LDI, LIMIT, ROOT, beside_ldi
from tests.watching import Folder, numbered


class InstallTest(unittest.TestCase):
    """The programs in a folder of their own."""

    def setUp(self) -> None:
        self.folder = Folder()
        self.addCleanup(self.folder.remove)
        place = tempfile.TemporaryDirectory()
        self.addCleanup(place.cleanup)
        self.prefix = place.name

    def once(self) -> subprocess.CompletedProcess[str]:
        """Runs the installed program, without LDI."""
        environment = {name: value for name, value in os.environ.items() if name != "LDI"}
        command = [os.path.join(self.prefix, "bin", "ldi-watch"), "--once", "-T", "t.ld", "-o", "image"]
        return subprocess.run(
            [*command, *self.folder.names], cwd=self.folder.path, capture_output=True, text=True, env=environment
        )

    def test_installed(self) -> None:
        """It finds the linker beside it, and the programs that say why an object is refused."""
        programs = os.path.join(self.prefix, "built")
        os.mkdir(programs)
        for name in ("ldi", "readobj", "readscript"):
            os.symlink(beside_ldi(name), os.path.join(programs, name))
        install = [str(ROOT / "tools" / "install"), self.prefix, programs]
        subprocess.run(install, check=True, capture_output=True, timeout=LIMIT)
        done = self.once()
        self.assertEqual((done.returncode, done.stderr), (0, ""))
        self.assertEqual(self.folder.image(), self.folder.link())
        data = numbered(1, 2, 3)
        self.folder.put("o1.o", data[:18] + b"\xff" + data[19:])
        done = self.once()
        self.assertEqual(done.returncode, 2)
        self.assertIn("[o1.o: refused 4 3]", done.stdout)
        said = subprocess.run([beside_ldi("readobj"), "o1.o"], cwd=self.folder.path, capture_output=True, text=True)
        self.assertIn(said.stdout.splitlines()[-1].strip(), done.stdout)


class ExampleTest(unittest.TestCase):
    """examples/watch, in a copy."""

    def test_once(self) -> None:
        """`make once` makes the objects, links and runs the program; where something fails it runs none."""
        with tempfile.TemporaryDirectory() as top:
            for name in ("linux", "watch"):
                shutil.copytree(ROOT / "examples" / name, os.path.join(top, "examples", name))
            os.symlink(ROOT / "front", os.path.join(top, "front"))
            command = ["make", "-s", "-C", os.path.join(top, "examples", "watch"), "once", f"LDI={LDI}"]
            done = subprocess.run(command, capture_output=True, text=True, timeout=LIMIT)
            self.assertEqual(done.returncode, 0, done)
            self.assertIn("primes below 100: 25", done.stdout)
            for name, text, said in (("text.c", "int nothing;\n", "undefined reference to `write_line'"),
                                     ("main.c", "no C\n", "the old image stays")):
                with open(os.path.join(top, "examples", "linux", name), "w", encoding="utf-8") as file:
                    file.write(text)
                done = subprocess.run(command, capture_output=True, text=True, timeout=LIMIT)
                self.assertNotEqual(done.returncode, 0)
                self.assertIn(said, done.stdout)
                self.assertNotIn("primes", done.stdout)
