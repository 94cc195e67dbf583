"""Tests of tools/rules: the tables of the front end and of the documents are those of the crates."""
from __future__ import annotations

import shutil
import subprocess
import sys
import tempfile
import unittest
from pathlib import Path
from unittest import mock

from tests.programs import ROOT

sys.path.insert(0, str(ROOT / "tools"))

import rule_rows
import rule_tables
from calculator import relocation, tokens


class RulesTest(unittest.TestCase):
    """The rows of the crates, and what is made of them."""

    def test_written(self) -> None:
        """What is committed is what the tool writes."""
        done = subprocess.run([ROOT / "tools" / "rules", "--check"], capture_output=True, text=True, check=False)
        self.assertEqual((done.returncode, done.stdout.count("\n")), (0, 1), done.stdout)

    def test_calculator(self) -> None:
        """The calculator's own rows say the same of relocations and reserved words."""
        own = {number: (f"R_X86_64_{kind.name}", kind.width, kind.is_relative, kind.range)
               for number, kind in relocation.TYPES.items()}
        self.assertEqual(own, {row.number: (row.name, row.width, row.calculation.endswith("P"), row.range)
                               for row in rule_rows.relocations()})
        reserved = rule_rows.reserved()
        self.assertEqual(tokens.RESERVED, {row.word for row in reserved})
        self.assertEqual(set(tokens.CALLS), {row.word for row in reserved if row.opens_expression})

    def test_forms(self) -> None:
        """Rows are read from the forms of the definitions: ends of ranges, words of lines."""
        rows = {row.name: row for row in rule_rows.relocations()}
        self.assertEqual(rows["R_X86_64_16"].range, (-32768, 65535))
        self.assertEqual(rows["R_X86_64_PC64"], rule_rows.Relocation("R_X86_64_PC64", 24, 8, "S + A - P", None))
        heads = {fault.rule: fault.head for fault in rule_rows.faults()}
        self.assertEqual(heads["FieldOverflow"], "F14 OBJECT SECTION OFFSET TYPE VALUE")
        self.assertEqual(heads["EntryNotInOutput"], "F13 entry")


class MissingTest(unittest.TestCase):
    """A rule of which something is missing is an error that names the place."""

    def setUp(self) -> None:
        """A copy of the definitions, to be broken."""
        folder = tempfile.TemporaryDirectory()
        self.addCleanup(folder.cleanup)
        self.crates = Path(folder.name)
        crates = "elfobj_file emit_fields ldmodel ldscript ldscript_terms ldscript_tokens place"
        for crate in crates.split():
            for part in ("src", "specs"):
                shutil.copytree(ROOT / "crates" / crate / part, self.crates / crate / part)
        shutil.copytree(ROOT / "crates" / "readobj" / "src", self.crates / "readobj" / "src")
        patch = mock.patch.object(rule_rows, "CRATES", self.crates)
        patch.start()
        self.addCleanup(patch.stop)

    def refused(self, path: str, old: str, new: str) -> str:
        """What is said after an edit of a definition."""
        file = self.crates / path
        text = file.read_text()
        self.assertEqual(text.count(old), 1)
        file.write_text(text.replace(old, new))
        with self.assertRaises(rule_rows.Unread) as caught:
            rule_tables.read()
        return str(caught.exception)

    def test_whole(self) -> None:
        """The copy itself is read."""
        table = (ROOT / rule_tables.FRONT).read_text(encoding="utf-8")
        self.assertEqual(len(rule_tables.read().faults), table.count("    FaultForm {"))

    def test_no_row(self) -> None:
        """A type of relocations without a range."""
        self.assertEqual(self.refused(rule_rows.FIELDS, "fits Pc16 value", "fits Other value"),
                         "crates/emit_fields/specs/Fields.antt has no row of Pc16")

    def test_other_form(self) -> None:
        """A range in another form."""
        self.assertIn("fits has a row of another form: is_small value", self.refused(
            rule_rows.FIELDS, "fits Abs32 value = nat_lt value (2 ^ 32)", "fits Abs32 value = is_small value"))

    def test_other_words(self) -> None:
        """A fault line with another number of words than its comment has."""
        self.assertIn("F6 LINE NAME has not the words of fault_words",
                      self.refused(rule_rows.FAULT_CODE, "/// `F6 LINE`:", "/// `F6 LINE NAME`:"))

    def test_other_number(self) -> None:
        """A fault line with another number than its comment has."""
        self.assertIn("the line of MovedBack does not begin with F16",
                      self.refused(rule_rows.FAULT_CODE, "/// `F6 LINE`:", "/// `F16 LINE`:"))

    def test_no_words(self) -> None:
        """A refusal that nobody has written a sentence for."""
        path, _ = rule_rows.REFUSALS["script"]
        self.assertEqual(self.refused(path, "script_refusal_number Limit = 5",
                                      "script_refusal_number Limit = 5\nscript_refusal_number Odd = 7"),
                         "tools/rules.toml: [script] has not the rules of the crates in their order: ['Odd']")

