"""What `make install` leaves: programs and documents for every user, and nothing of an older installation."""
from __future__ import annotations

import os
import stat
import subprocess
import tempfile
import unittest
from pathlib import Path

from tests.linking import LIMIT
from tests.programs import BIN, ROOT, beside_ldi

PROVED = ("ldi", "readobj", "readscript")
NAMES = sorted(path.name for path in BIN.iterdir())
"""The names of the front end."""


class InstallTest(unittest.TestCase):
    """The programs as they are installed."""

    def setUp(self) -> None:
        """Two folders."""
        place = tempfile.TemporaryDirectory(prefix="ldi-test-")
        self.addCleanup(place.cleanup)
        self.built, self.prefix = Path(place.name, "built"), Path(place.name, "to")
        self.built.mkdir()
        for name in PROVED:
            (self.built / name).symlink_to(os.path.realpath(beside_ldi(name)))

    def run_install(self, *words: str | Path, cwd: Path = ROOT) -> None:
        """Runs `tools/install` as a user who hides new files from others."""
        subprocess.run(["sh", "-c", 'umask 077; exec "$0" "$@"', ROOT / "tools" / "install", *words], cwd=cwd,
                       check=True, capture_output=True, timeout=LIMIT)

    def install(self) -> None:
        """Installs."""
        self.run_install(self.prefix, self.built)

    def there(self) -> list[str]:
        """What is below the prefix."""
        return sorted(str(path.relative_to(self.prefix)) for path in self.prefix.rglob("*"))

    def test_files(self) -> None:
        """The front end once, under each of its names by a link that stays right where the folder goes; `gcc -B`."""
        self.install()
        self.assertEqual(sorted(path.name for path in (self.prefix / "bin").iterdir()),
                         sorted([*PROVED, "ldi-front", *NAMES]))
        self.assertEqual([path.name for path in (self.prefix / "lib" / "ldi").iterdir()], ["gcc"])
        moved = self.prefix.with_name("moved")
        self.prefix.rename(moved)
        for name in (*(f"bin/{name}" for name in NAMES), "lib/ldi/gcc/ld", "lib/ldi/gcc/ld.bfd"):
            self.assertTrue((moved / name).is_symlink())
            self.assertEqual((moved / name).resolve(), (moved / "bin" / "ldi-front").resolve())

    def test_modes(self) -> None:
        """All can read each file, and run the programs; nobody else can write one."""
        self.install()
        for path in self.prefix.rglob("*"):
            mode = stat.S_IMODE(path.stat().st_mode)
            is_program = path.is_dir() or path.parent.name in ("bin", "gcc")
            self.assertEqual(mode, 0o755 if is_program else 0o644, path)

    def test_installed_again(self) -> None:
        """What versions in Python left goes; a second installation changes nothing else."""
        old = self.prefix / "lib" / "ldi" / "client" / "ld"
        old.mkdir(parents=True)
        (old / "main.py").write_text("x = 1\n", encoding="utf-8")
        (self.prefix / "bin").mkdir()
        (self.prefix / "bin" / "ld.ldi").write_text("#!/usr/bin/python3\n", encoding="utf-8")
        self.install()
        before = self.there()
        self.assertFalse(old.parent.exists())
        self.install()
        self.assertEqual(self.there(), before)
        self.assertEqual((self.prefix / "bin" / "ld.ldi").resolve().name, "ldi-front")

    def test_removed(self) -> None:
        """`tools/install --remove` leaves what others put there, and nothing else."""
        self.install()
        (self.prefix / "bin" / "other").write_text("", encoding="utf-8")
        self.run_install("--remove", self.prefix)
        self.assertEqual(self.there(), ["bin", "bin/other"])

    def test_make(self) -> None:
        """`make install` and `make uninstall` with PREFIX and DESTDIR, from another folder."""
        words = ["make", "-s", "-C", str(ROOT), "PREFIX=/usr", f"DESTDIR={self.prefix}"]
        for target, wanted in (("install", True), ("uninstall", False)):
            done = subprocess.run([*words, target], cwd=self.built, capture_output=True, text=True, timeout=LIMIT,
                                  check=False, env={**os.environ, "PROGRAMS": str(self.built)})
            self.assertEqual(done.returncode, 0, done.stderr)
            self.assertEqual((self.prefix / "usr" / "bin" / "ld.ldi").exists(), wanted)
        self.assertEqual(self.there(), ["usr"])

    def test_program(self) -> None:
        """The program runs from there with the `ldi` beside it, and writes nothing there."""
        self.install()
        before = self.there()
        environment = {name: value for name, value in os.environ.items() if name != "LDI"}
        for name in (self.prefix / "bin" / "ld.ldi", self.prefix / "lib" / "ldi" / "gcc" / "ld"):
            done = subprocess.run([name, "--version"], capture_output=True, text=True, check=True, timeout=LIMIT,
                                  env=environment, cwd="/")
            self.assertRegex(done.stdout, r"^GNU ld \(ldi .*\) [0-9.]+\n")
        self.assertEqual(self.there(), before)
