"""The program `ldi-adapt`: statuses, places, INCLUDE, what stays as it is."""
from __future__ import annotations

import os
import subprocess
import tempfile
import unittest
from pathlib import Path

from tests.adapt_objects import make
from tests.adapting import Adapted, adapt
from tests.programs import ROOT


class AdaptTest(unittest.TestCase):
    """What becomes of scripts."""

    def setUp(self) -> None:
        """Makes a folder."""
        folder = tempfile.TemporaryDirectory()
        self.addCleanup(folder.cleanup)
        self.folder = Path(folder.name)

    def adapted(self, text: str, *words: str) -> Adapted:
        """A script `script`, adapted in the folder."""
        (self.folder / "script").write_text(text, encoding="utf-8")
        return adapt("script", *words, cwd=self.folder)

    def test_profile_stays(self) -> None:
        """A script of the profile stays as it is, byte for byte."""
        text = (ROOT / "examples/linux/linux.ld").read_text(encoding="utf-8")
        self.assertEqual(self.adapted(text), Adapted(0, text.encode(), ""))

    def test_comments_and_lines_stay(self) -> None:
        """What is not rewritten stays, and each line keeps its number."""
        text = ("/* one */\nOUTPUT_FORMAT(\n  elf64-x86-64 /* two */)\nSECTIONS {\n  x = ABSOLUTE(.); /* three */\n"
                "\t.text : { *(.text) }   /* four */\n  .comment 0 : {\n    *(.comment) }\n}\n")
        result = self.adapted(text)
        lines = result.script.split("\n")
        self.assertEqual(len(lines), text.count("\n") + 1)
        self.assertEqual(lines[4], "  x = .; /* three */")
        self.assertEqual(lines[5], "\t.text : { *(.text) }   /* four */")
        self.assertIn("/* two */", lines[2])
        self.assertEqual([(note.kind, note.line) for note in result.report],
                         [("dropped", 2), ("rewritten", 5), ("dropped", 7)])

    def test_include(self) -> None:
        """INCLUDE is read in, at the top, in SECTIONS, MEMORY and output sections."""
        inside = self.folder / "inside"
        inside.mkdir()
        (inside / "mem.ld").write_text("ram : ORIGIN = 0x1000,\n LENGTH = 4K\n")
        (inside / "in.ld").write_text("/* in */\n*(.text)\nINCLUDE deep.ld\n")
        (inside / "deep.ld").write_text("y = ABSOLUTE(.);\n")
        text = "MEMORY {\nINCLUDE mem.ld\n}\nSECTIONS {\n.text : {\nINCLUDE in.ld\nz = .;\n} >ram\n}\n"
        result = self.adapted(text, "-L", "inside")
        order = [result.script.index(part) for part in ("LENGTH", "*(.text)", "y = .", "z = .")]
        self.assertEqual(order, sorted(order))
        self.assertEqual({note.kind for note in result.report}, {"rewritten"})
        result = self.adapted("\nINCLUDE none.ld\n")
        self.assertEqual((result.status, result.text), (2, b""))
        self.assertRegex(result.errors, "^script:2:.*none.ld")

    def test_no_parse(self) -> None:
        """The line and the reason."""
        for text, message in (("SECTIONS {\n.text : {\n*(.text\n}", "script:4:.* not `}`"),
                              ("SECTIONS {\n x = ;\n}", "script:2:.* not `;`"),
                              ("a = 1\nb = 2;", "script:2:.*`;`"),
                              ("/* open", "script:1:.*this comment has no end"),
                              (f"x = {'(' * 3000}1{')' * 3000};", "hundreds of signs"),
                              (f"x = {'1 + ' * 5000}1;", "hundreds of signs"),
                              ("SECTIONS { .a : { *(.a) }", "script:1:.*`{` of SECTIONS has no `}`")):
            with self.subTest(text[:40]):
                result = self.adapted(text)
                self.assertEqual((result.status, result.text), (2, b""))
                self.assertRegex(result.errors, message)

    def test_discard(self) -> None:
        """What lld takes in /DISCARD/, and GNU ld does not, stands before it."""
        result = self.adapted('SECTIONS { /DISCARD/ : { *(.x) a = 1; . = 4; BYTE(2) ASSERT(a == 1, "m"); *(.y) } }')
        self.assertEqual(" ".join(result.script.split()),
                         'SECTIONS { a = 1; ASSERT(a == 1, "m"); /DISCARD/ : { *(.x) *(.y) } }')
        self.assertEqual([note.kind for note in result.report], ["rewritten", "dropped", "dropped", "rewritten"])

    def test_defsym(self) -> None:
        """--defsym is an assignment, and decides DEFINED."""
        result = self.adapted("x = DEFINED(x) ? x : 4;\ny = x;", "--defsym", "x=0x10")
        self.assertEqual((result.status, result.script), (0, "ldi.x = 0x10;x = ldi.x;\ny = x;"))
        self.assertRegex(self.adapted("", "--defsym", "x=1 +").errors, "--defsym x")

    def test_objects_decide(self) -> None:
        """What the objects say: DEFINED, orphans, an entry that nothing defines."""
        names = [os.path.basename(path) for path in make(str(self.folder))]
        result = self.adapted("x = DEFINED(main) ? 1 : 2;\nSECTIONS { .text : { *(.text) } }", "--objects", *names)
        entry = self.adapted("ENTRY(none) SECTIONS { .t : { *(*) } }", "--objects", *names)
        self.assertTrue(any("ENTRY(none): nothing defines it" in note.text for note in entry.report))
        self.assertIn("x = 1;", result.script)
        self.assertIn(".rodata : { *(.rodata) }", result.script)
        self.assertLess(result.status, 2, result.errors)

    def test_linkonce(self) -> None:
        """Sections that GNU ld links once."""
        names = ("a.o", "b.o", "c.o")
        for name, function in zip(names, ("f", "g", "f")):
            text = f'.section .gnu.linkonce.t.{function},"ax"\nret'
            subprocess.run(["as", "-o", self.folder / name, "-"], input=text, text=True, check=True, timeout=180)
        result = self.adapted("SECTIONS { .text : { *(.text .gnu.linkonce.t.*) } }", "--objects", *names)
        wanted = (".gnu.linkonce.t.f of a.o and 1 more: GNU ld takes the first section of a name; here all are in the "
                  "image")
        self.assertEqual([note.text for note in result.report], [wanted])

    def test_left_says_what_to_do(self) -> None:
        """An object's symbol outside of ASSERT."""
        report = self.adapted("SECTIONS { .text : { *(.text) } }\njiffies = jiffies_64;").report
        self.assertEqual([(note.kind, note.line) for note in report], [("left", 2)])
        self.assertIn("`ASSERT(here == jiffies_64, \"..\")`", report[0].text)
        names = [os.path.basename(path) for path in make(str(self.folder))]
        text = "SECTIONS { .t : {\n*(.data) } /DISCARD/ : { *(*) } } x = data_a;"
        result = self.adapted(text, "--objects", *names)
        self.assertIn("before line 2 write `. = ALIGN(8); here = .; ", result.errors)


class ProgramTest(unittest.TestCase):
    """The command line."""

    def run_program(self, *words: str, text: str = "") -> tuple[int, str, str]:
        """Status, standard output and standard error of the program over a script."""
        with tempfile.TemporaryDirectory() as folder:
            Path(folder, "s.ld").write_text(text)
            done = adapt(*words, cwd=folder)
            out = Path(folder, "o.ld")
            return done.status, out.read_text() if out.exists() else done.script, done.errors

    def test_statuses(self) -> None:
        """0, 1 and 2, with the report's lines on standard error."""
        self.assertEqual(self.run_program("s.ld", text="x = MAX(1, 2);")[:2], (0, "x = 1 > 2 ? 1 : 2;"))
        status, out, report = self.run_program("s.ld", "-o", "o.ld", text="\nPHDRS { a PT_LOAD; }")
        self.assertEqual((status, out), (1, "\n"))
        self.assertTrue(report.startswith("s.ld:2: changed: PHDRS"), report)
        self.assertEqual(self.run_program("s.ld", text="INPUT(a.o)")[0], 2)
        status, out, report = self.run_program("s.ld", text="x = 1\n")
        self.assertEqual((status, out), (2, ""))
        self.assertTrue(report.startswith("s.ld:"), report)

    def test_words(self) -> None:
        """Words that are refused, and those that are not."""
        for words in ((), ("s.ld", "t.ld"), ("s.ld", "--none"), ("s.ld", "--defsym", "x"), ("none.ld",),
                      ("s.ld", "-o"), ("s.ld", "-o", "/dev/full"), ("s.ld", "--objects", "s.ld")):
            status, out, report = self.run_program(*words, text="x = 1;")
            self.assertEqual((status, out), (2, ""))
            self.assertTrue(report.startswith("ldi-adapt: "), report)
        self.assertEqual(self.run_program("--help")[0], 0)
        self.assertEqual(self.run_program("s.ld", "--defsym=x=1", "--defsym", "y=2")[1], "x = 1;y = 2;")

    def test_default_script(self) -> None:
        """GNU ld's default script: nothing of it is left, and what the objects may change is said."""
        text = subprocess.run(["ld.bfd", "--verbose", "-static"], capture_output=True, text=True, check=True,
                              timeout=180).stdout.split("=" * 50)[1]
        status, out, report = self.run_program("s.ld", text=text)
        self.assertEqual(status, 1, report)
        self.assertNotIn(" left: ", report)
        self.assertIn("PROVIDE(__executable_start = ", out.replace("PROVIDE (", "PROVIDE("))

    def test_refused_by_the_reader(self) -> None:
        """A text that `readscript` refuses has status 2, whatever the report says."""
        memory = "MEMORY { rom : ORIGIN = 0, LENGTH = 1M ram : ORIGIN = 0x8000000, LENGTH = 1M }\n"
        for text, line in ((f"{memory}SECTIONS {{\n.t : AT(0x1000) {{ *(.text) }} >ram AT>rom }}", "s.ld:3: "),
                           ("SECTIONS { .t : { *(.text) }\n.u : { : *(.data) } }", "s.ld:")):
            status, _, report = self.run_program("s.ld", text=text)
            self.assertEqual(status, 2, report)
            self.assertTrue(any(one.startswith(line) for one in report.splitlines()), report)

    def test_image_of_the_objects(self) -> None:
        """With objects the images are compared: what no line of the report says is found."""
        with tempfile.TemporaryDirectory() as folder:
            paths = make(folder)
            rest = ".r : { *(.text*) *(.rodata*) *(.tab*) *(.init_array*) *(.data*) *(.bss) *(COMMON) } "
            rest += "end = .; _end = .; provided = 1; __stack = 2;"
            for load in ("", "AT(0x2003) "):
                script = f"SECTIONS {{ . = 0x1000; .d : {load}{{ *(.data) }} {rest} }}"
                status, out, report = self.run_program("s.ld", "--objects", *paths, text=script)
                self.assertEqual((status, ".r : AT(" in out), (0, bool(load)), report)
            for name in ("d.o", "e.o"):
                text = ".text\n.cfi_startproc\nret\n.cfi_endproc\n"
                paths.append(os.path.join(folder, name))
                subprocess.run(["as", "-o", paths[-1], "-"], input=text, text=True, check=True, timeout=180)
            script = f"SECTIONS {{ .eh_frame : {{ *(.eh_frame) }} {rest} }}"
            status, _, report = self.run_program("s.ld", "--objects", *paths, text=script)
        self.assertEqual(status, 1, report)
        self.assertIn("changed: .eh_frame", report)

    def test_rest_of_a_statement(self) -> None:
        """What is around a name that is left is in the profile's words; the statement is left all the same."""
        status, out, report = self.run_program("s.ld", text="x = 1M; p = ABSOLUTE(start - x) + MAX(x, 3);")
        self.assertEqual((status, out), (2, "x = 1M; p = start - x + (x > 3 ? x : 3);"))
        self.assertIn("s.ld:1: left: p = ABSOLUTE(start - x)", report)
        status, out, _ = self.run_program("s.ld", text="SECTIONS { .t : { x = ABSOLUTE(start); *(.t) } }")
        self.assertEqual((status, out), (2, "SECTIONS { .t : { x = start; *(.t) } }"))

    def test_list_of_objects(self) -> None:
        """--objects @LIST."""
        with tempfile.TemporaryDirectory() as folder:
            paths = make(folder)
            Path(folder, "list").write_text("\n".join(paths) + "\n")
            text = "ENTRY(_start) x = DEFINED(main); provided = x; __stack = x; SECTIONS { .t : { *(.text .data .bss "
            text += "COMMON .text.* .data.* .rodata* .tab* .init_array.*) } end = .; _end = .; }"
            status, out, report = self.run_program("s.ld", "--objects", f"@{folder}/list", text=text)
        self.assertEqual((status, out), (0, text.replace("DEFINED(main)", "1")), report)
