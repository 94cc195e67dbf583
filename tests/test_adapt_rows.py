"""Each construct that the profile does not have, adapted by `ldi-adapt`, beside GNU ld."""
from __future__ import annotations

import os
import subprocess
import tempfile
import unittest
from pathlib import Path

from tests.adapt_compare import LinkFailed, differences, link_gnu, link_ldi
from tests.adapt_objects import NAMES, make
from tests.adapt_rows import LEFT, REST, ROWS, TAIL, Row
from tests.adapting import Adapted, adapt


class AdaptRowsTest(unittest.TestCase):
    """The table of `adapt_rows.py`."""

    folder: tempfile.TemporaryDirectory
    old: str

    @classmethod
    def setUpClass(cls) -> None:
        """Makes the objects once."""
        cls.folder = tempfile.TemporaryDirectory()
        cls.old = os.getcwd()
        os.chdir(cls.folder.name)
        make(".")

    @classmethod
    def tearDownClass(cls) -> None:
        """Removes the objects."""
        os.chdir(cls.old)
        cls.folder.cleanup()

    def adapted(self, row: Row) -> Adapted:
        """The row's script, adapted to `adapted.ld`."""
        Path("original.ld").write_text(row.text(), encoding="latin-1")
        defsyms = [f"--defsym={name}={value}" for name, value in row.defsyms]
        result = adapt("original.ld", *defsyms, *(["--objects", *NAMES] if row.known else []))
        kinds = {note.kind[0] for note in result.report}
        self.assertEqual(kinds & set("cl"), set(row.kinds) & set("cl"), result.errors)
        self.assertLessEqual(kinds, set(row.kinds), result.errors)
        return result

    def test_rows(self) -> None:
        """The same addresses, sizes, load addresses and values, but for what the report says is changed."""
        for row in ROWS:
            with self.subTest(row.name):
                self.one(row)

    def one(self, row: Row) -> None:
        """One row."""
        result = self.adapted(row)
        if "l" in row.kinds:
            return
        options = tuple(f"--defsym={name}={value}" for name, value in row.defsyms)
        try:
            gnu = link_gnu("original.ld", NAMES, "gnu.out", options)
        except LinkFailed as fault:
            self.fail(f"GNU ld: {fault}")
        Path("adapted.ld").write_bytes(result.text)
        text = result.text.decode("latin-1")
        try:
            ldi = link_ldi("adapted.ld", NAMES, "ldi.out")
        except LinkFailed as fault:
            self.fail(f"ldi: {fault}\n{text}")
        found = [text for text in differences(gnu, ldi) if not text.startswith(row.different or ("\0",))]
        self.assertEqual(found, [], text)

    def test_left(self) -> None:
        """What nothing can be written for."""
        for row in LEFT:
            with self.subTest(row.name):
                self.adapted(row)

    def test_include(self) -> None:
        """INCLUDE at each of its places: what GNU ld has of the files."""
        for name, text in {
            "mem.ld": "ram : ORIGIN = 0x8000, LENGTH = 1M\n",
            "top.ld": "top = ORIGIN(ram) + LENGTH(ram);\n",
            "in.ld": "*(.text)\nINCLUDE deep.ld\n",
            "deep.ld": "mark = ABSOLUTE(.);\n. = mark + 0x20;\n",
            "more.ld": f".more : {{ *(.data) }} >ram {REST} >ram {TAIL}\n",
        }.items():
            Path(name).write_text(text, encoding="ascii")
        script = ("MEMORY {\nINCLUDE mem.ld\n}\nINCLUDE top.ld\nSECTIONS {\n.text : {\n*(.rodata)\nINCLUDE in.ld\n"
                  "after = .;\n} >ram\nINCLUDE more.ld\n}\n")
        self.one(Row("INCLUDE", script, "r"))

    def test_binary(self) -> None:
        """OUTPUT_FORMAT(binary): `objcopy -O binary` makes of the image the file that GNU ld writes."""
        script = f". = 0x1000; .t : {{ *(.text .data) }} =0x90909090 {REST} =0x90909090 {TAIL}"
        row = Row("binary", f"OUTPUT_FORMAT(binary) SECTIONS {{ {script} }}", "c")
        result = self.adapted(row)
        self.assertEqual([note.text.partition(":")[0] for note in result.report], ["OUTPUT_FORMAT(binary)"])
        subprocess.run(["ld.bfd", "-T", "original.ld", "-o", "gnu.bin", *NAMES], check=True, timeout=180)
        Path("adapted.ld").write_bytes(result.text)
        link_ldi("adapted.ld", NAMES, "image")
        subprocess.run(["objcopy", "-O", "binary", "image", "ldi.bin"], check=True, timeout=180)
        self.assertEqual(Path("ldi.bin").read_bytes(), Path("gnu.bin").read_bytes())
