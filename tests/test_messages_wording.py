"""What the programs say: options by the name that was given, refusals by what they are, versions, numbers of things."""
from __future__ import annotations

import os
import re
import shutil
from pathlib import Path

from tests.programs import LD_LDI, LDI, LDI_ADAPT, LDI_GDB, LDI_WATCH, ROOT, OutsideTest, needs

START = ".globl _start\n_start: nop\n"
PLAIN = """ENTRY(_start)
SECTIONS { . = 0x400000; .text : { *(.text) } .rodata : { *(.rodata*) } . = ALIGN(4096); .data : { *(.data) }
           .bss : { *(.bss) *(COMMON) } /DISCARD/ : { *(.comment) *(.note*) *(.eh_frame) } }
"""
NONE = {"LDI_FALLBACK": "none"}


class WordsTest(OutsideTest):
    """Options, and what is said of them."""

    def setUp(self) -> None:
        """A link."""
        super().setUp()
        self.compile("a.s", START)
        self.write("t.ld", PLAIN)

    def said(self, *words: str, **env: str) -> str:
        """What is said of a good link with these words."""
        return self.links(*words, "-T", "t.ld", "a.o", "-o", "out", env={**NONE, **env}).stderr

    def test_build_id(self) -> None:
        """The last of --build-id counts."""
        self.assertEqual(self.said("--build-id", "--build-id=none"), "")
        self.assertEqual(self.said("--build-id=sha1", "--build-id=none"), "")
        self.assertIn("build ID", self.said("--build-id=none", "--build-id"))

    def test_option_as_it_is_written(self) -> None:
        """A message names an option by the name that was given."""
        for option in ("--relocatable", "-r", "--embedded-relocs", "--split-by-file=4"):
            done = self.ld(option, "-T", "t.ld", "a.o", "-o", "out", env=NONE)
            self.assertEqual(done.returncode, 2)
            self.assertTrue(done.stderr.startswith(f"ld.ldi: {option.partition('=')[0]}: "), done.stderr)
        done = self.ld("-m", "elf_i386", "-m", "elf_i386", "a.o", env=NONE)
        self.assertEqual(done.stderr.count("-m elf_i386"), 1, done.stderr)
        self.assertTrue(self.said("--trace-symbol=one").startswith("ld.ldi: --trace-symbol: "))

    def test_no_server_in_a_container(self) -> None:
        """--verbose says that no server is left, and why."""
        for env in ({"container": "podman"}, {"CI": "true"}):
            with_server = {"LDI_SERVER": "", **env}
            self.assertIn("LDI_SERVER=1", self.said("--verbose", **with_server))
            self.assertEqual(self.said(**with_server), "")
        self.assertNotIn("LDI_SERVER=1", self.said("--verbose", CI="true"))
        self.assertEqual(self.servers(), [])

    def test_versions(self) -> None:
        """--version of each program has the version of `ldi`."""
        number = self.must(LDI, "--version").split()[-1]
        for program, words in ((LDI_WATCH, ["ldi-watch", number]), (LDI_GDB, ["ldi-gdb", number]),
                               (LDI_ADAPT, ["ldi-adapt", number])):
            self.assertEqual(self.must(program, "--version").split(), words)
        self.assertIn(f"(ldi {number})", self.must(LD_LDI, "--version"))

    def test_one_place(self) -> None:
        """One place is no `places`."""
        self.write("one.ld", PLAIN.replace(".rodata :", "OVERLAY : { .one { *(.one) } .two { *(.two) } } .rodata :"))
        done = self.ld("-T", "one.ld", "a.o", "-o", "out", env=NONE)
        self.assertNotEqual(done.returncode, 0)
        self.assertIsNone(re.search(r"\b1 (places|objects|lines|statements)", done.stderr), done.stderr)

    def test_name_of_an_object(self) -> None:
        """A watch of an object whose name has a space, or another byte outside `!` to `~`: the byte is named."""
        self.write("plain.ld", "ENTRY(_start) SECTIONS { .text : { *(.text) } }\n")
        for name, byte in (("a b.o", "0x20"), ("\N{LATIN SMALL LETTER E WITH ACUTE}.o", "0xc3")):
            shutil.copy(self.folder / "a.o", self.folder / name)
            done = self.run_program(LDI_WATCH, "--once", "-T", "plain.ld", "-o", "out", name)
            if done.returncode:  # a watch may also take the name, as `ld.ldi` does
                self.assertIn(byte, done.stdout + done.stderr)


class ExampleTest(OutsideTest):
    """What the manual shows."""

    @needs("make", "gcc", "addr2line")
    def test_addresses_of_a_log(self) -> None:
        """The objects of the example have the source lines that the manual's output of `ldi-gdb --lines` has."""
        for file in (ROOT / "examples" / "linux").iterdir():
            if file.is_file():
                shutil.copy(file, self.folder)
        names = ("system.o", "text.o", "main.o")
        self.must("make", *names)
        self.must(LDI, "link", "--gc-sections", "-T", "linux.ld", "-o", "hello", "--Map", "hello.map", *names)
        for line in self.must(LDI_GDB, "--lines", "hello.map", "401013").splitlines():
            self.assertRegex(line, r"system\.c:[0-9]+")

    def test_one_statement(self) -> None:
        """`readscript` of a script with one statement."""
        self.write("one.ld", "SECTIONS { }\n")
        beside = Path(LDI).with_name("readscript")
        program = beside if beside.is_file() else ROOT / "crates" / "readscript" / "out" / "readscript"
        self.assertIn("1 statement\n", self.must(program, "one.ld"))

    def test_tip(self) -> None:
        """`ldi link -Map` is told `--Map`."""
        done = self.run_program(LDI, "link", "-T", "t.ld", "-o", "out", "-Map", "map", "a.o")
        self.assertEqual(done.returncode, 2)
        self.assertIn("--Map", done.stderr.split("Usage:")[0])


@needs("ld.bfd")
class AddressesTest(OutsideTest):
    """Lines that say what GNU ld makes."""

    def test_merged_strings(self) -> None:
        """An address of GNU ld is said only where it is GNU ld's: strings that it merges move what follows."""
        strings = '.section .rodata.str1.1, "aMS", @progbits, 1\n.string "abc"\n.string "abc"\n'
        self.write("t.ld", PLAIN)
        blocks = [self.compile(f"{name}.c", text, "-fcommon") for name, text in (
            ("c", "int com3[5], com4[4];\n"), ("d", "int com2[8], com3[4];\n"), ("e", "int com2[4], com4[9];\n"))]
        for name, text, merged in (("a", strings.replace('"aMS", @progbits, 1', '"a"'), False), ("b", strings, True)):
            self.compile(f"{name}.s", START + text)
            said = self.ld("-T", "t.ld", f"{name}.o", *blocks, "-o", "out", env=NONE).stderr
            for line in re.findall(r".*to GNU ld it is .* at 0x.*", said):  # none where the image is GNU ld's
                self.assertEqual("merges strings" in line, merged, said)


class RefusedObjectsTest(OutsideTest):
    """What is said of an object that is outside the profile."""

    GOT = 'int _start(void) { __asm__(".long other@GOT"); return 4; }\n'
    TLS = "extern _Thread_local int each; int _start(void) { return each; }\n"

    def said(self, *objects: str, **env: str) -> str:
        """What is said of a link that is refused."""
        self.write("t.ld", PLAIN)
        done = self.ld("-T", "t.ld", *objects, "-o", "out", env={**NONE, **env})
        self.assertEqual(done.returncode, 2, done.stderr)
        return done.stderr

    def named(self, **env: str) -> None:
        """The type of the relocation, the symbol and the section are named, each line once; TLS is TLS."""
        got = self.said(self.compile("got.c", self.GOT), **env)
        for part in ("got.o", "R_X86_64_GOT32", "other", ".text"):
            self.assertIn(part, got)
        lines = got.splitlines()
        self.assertEqual(len(lines), len(set(lines)), got)
        tls = self.said(self.compile("tls.c", self.TLS, "-fno-pic"), **env)
        for part in ("tls.o", "each", "TLS"):
            self.assertIn(part, tls)

    def test_names(self) -> None:
        """As `ld.ldi` is installed."""
        self.named()

    def test_names_by_itself(self) -> None:
        """The same where `readobj` is not beside `ldi`."""
        alone = self.folder / "alone" / "ldi"
        alone.parent.mkdir()
        shutil.copy(os.path.realpath(LDI), alone)
        self.named(LDI=str(alone))

    def test_in_one_line(self) -> None:
        """A link that is handed over names the relocation and the symbol in its line."""
        self.write("t.ld", PLAIN)
        self.compile("got.c", self.GOT)
        self.compile("other.c", "int other;\n")
        done = self.links("-T", "t.ld", "got.o", "other.o", "-o", "out")
        (line,) = [line for line in done.stderr.splitlines() if line.startswith("ld.ldi: ")]
        for part in ("got.o", "R_X86_64_GOT32", "other"):
            self.assertIn(part, line)
