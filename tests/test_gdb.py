"""`ldi-gdb`: gdb over an image, a copy with local names in objdump, nm and perf, and lines of addresses."""
from __future__ import annotations

import re
import struct

from tests.object_file import ObjectFile
from tests.programs import LDI, LDI_GDB, LD_LDI
from tests.linking import LinkTest, needs

SPIN = """
static volatile unsigned long total;
static __attribute__((noinline)) void spin_here(unsigned long rounds)
{
    for (unsigned long round = 0; round < rounds; round++)
        total += round;
}
__attribute__((noreturn)) void begin(void)
{
    spin_here(300000000);
    __asm__ volatile("syscall" : : "a"(60), "D"(0));
    __builtin_unreachable();
}
"""


NO_COPIES = ("-fno-inline", "-fno-ipa-sra", "-fno-ipa-cp")
"""Flags with which static functions keep their names and arguments."""

CALLERS = "-fno-optimize-sibling-calls"
"""Without it `begin` ends in a jump to `call`, and is no more on the stack when that runs: its caller follows."""


class ImageTest(LinkTest):
    """Images of `ldi link`, with their maps."""

    def link(self, *objects: str, script: str = "linux.ld", image: str = "hello") -> None:
        """Links, with the map beside the image."""
        words = ["--gc-sections", "-T", script, "-o", image, "--Map", f"{image}.map"]
        self.run_tool(LDI, "link", *words, *objects)

    def names(self, image: str) -> dict[str, str]:
        """The letters of nm by names."""
        lines = self.run_tool("nm", image).splitlines()
        return {line.split()[2]: line.split()[1] for line in lines}


class GdbTest(ImageTest):
    """gdb, driven by a script."""

    @needs("gdb")
    def test_static_function(self) -> None:
        """gdb stops at a static function, and prints its line, an argument and all its callers."""
        self.link(*self.compile_example("-g", *NO_COPIES, CALLERS))
        self.run_tool(LDI_GDB, "hello.map", "-o", "hello.gdb")
        self.write("drive", "source hello.gdb\nbreak call if number == 60\nrun\nframe\nprint number\nprint/x a\nbt\n"
                            "info symbol call\nprint sizeof(composite)\ninfo address never_called\n")
        text = self.run_tool("gdb", "-batch", "-nx", "-x", "drive", "./hello")
        lines = (self.folder / "system.c").read_text(encoding="utf-8").splitlines()
        line, caller = lines.index("    long result;") + 2, lines.index("    call(60, main(), 0, 0);") + 1
        self.assertRegex(text, rf"#0  call \(number=number@entry=60, .*\) at system\.c:{line}\n")
        self.assertIn("$1 = 60", text)
        self.assertIn("$2 = 0x0", text)
        self.assertRegex(text, rf"#1  0x\w+ in begin \(\) at system\.c:{caller}\n#2  0x\w+ in _start \(\)\n")
        self.assertIn("primes below 100: 25", text)
        self.assertIn("$3 = 100", text)
        self.assertRegex(text, r'"never_called" is a function at address 0x80000000000')

    @needs("gdb")
    def test_tail_call(self) -> None:
        """A function that ended in a jump to another is not among the callers."""
        self.link(*self.compile_example("-g", *NO_COPIES))
        self.run_tool(LDI_GDB, "hello.map", "-o", "hello.gdb")
        self.write("drive", "source hello.gdb\nbreak call if number == 60\nrun\nbt\n")
        text = self.run_tool("gdb", "-batch", "-nx", "-x", "drive", "./hello")
        self.assertRegex(text, r"#0  call \(number=60, .*\) at system\.c:[0-9]+\n#1  0x[0-9a-f]+ in _start \(\)\n")

    def test_script(self) -> None:
        """Objects with what is in the image, what is left out at no address, COMMON and empty sections not named."""
        self.compile("a.s", ".globl f\nf: nop\n.section .x,\"ax\"\nnop\n.section .gone,\"a\"\n.byte 1\n.comm c, 8\n")
        text = (b"entry 0000000000001000\nsection .text 0000000000001000 0000000000001000 0000000000000002 r-x\n"
                b"piece 0000000000001000 0000000000000001 a.o .text\n"
                b"piece 0000000000001001 0000000000000000 a.o .data\n"
                b"piece 0000000000001001 0000000000000001 a.o .x\npiece 0000000000002000 0000000000000008 a.o COMMON\n"
                b"piece 0000000000003000 0000000000000001 none.o .text\n"
                b"piece 0000000000003000 0000000000000001 x.a(m.o) .text\n")
        self.write("x.map", text)
        lines = self.run_program(LDI_GDB, "x.map").stdout.splitlines()
        self.assertEqual(lines[2:], [
            f"add-symbol-file {self.folder}/a.o -s .text 0x1000 -s .x 0x1001 -s .gone 0x8000000000000000",
            "# left out: none.o: No such file or directory",
            "# x.a(m.o): a member of an archive; `ldi-gdb --members FOLDER` unpacks it",
        ])

    def test_members(self) -> None:
        """Members of archives are unpacked into a folder."""
        objects = self.compile_example("-g")
        self.run_tool("ar", "rcs", "libtext.a", "text.o")
        words = ["-T", "linux.ld", "-o", "hello", "-Map=hello.map", "--Map-format=ldi"]
        self.run_tool(self.ld_path(), *words, "system.o", "main.o", "libtext.a")
        done = self.run_program(LDI_GDB, "hello.map")
        self.assertEqual((done.returncode, len(done.stderr.splitlines())), (1, 1))
        script = self.run_tool(LDI_GDB, "hello.map", "--members", "unpacked")
        self.assertIn(f"add-symbol-file {self.folder}/unpacked/libtext.a_text.o_ -s .text.write_line", script)
        unpacked = (self.folder / "unpacked/libtext.a_text.o_").read_bytes()
        self.assertEqual(unpacked, (self.folder / "text.o").read_bytes())
        self.assertEqual(len(objects), 3)

    def ld_path(self) -> str:
        """The path of `ld.ldi`."""
        return str(LD_LDI)

    def test_lines(self) -> None:
        """An address as function, source line, object, section and offset."""
        self.link(*self.compile_example("-g", *NO_COPIES))
        place = next(line.split() for line in self.run_tool("nm", "hello").splitlines() if " write_line" in line)
        text = self.run_tool(LDI_GDB, "--lines", "hello.map", place[0], "1")
        self.assertRegex(text, r"write_line at .*text\.c:7 \(text\.o \.text\.write_line\+0x0\)\n0x1: in no section\n")
        done = self.run_program(LDI_GDB, "--lines", "hello.map", "--objects", ".", "zzz", place[0])
        self.assertEqual((done.returncode, done.stderr), (2, "ldi-gdb: zzz is no address\n"))
        self.assertIn("write_line at ", done.stdout)


class SymbolsTest(ImageTest):
    """The copy with local names."""

    def copy(self, image: str = "hello") -> str:
        """Makes the copy; gives its name."""
        self.run_tool(LDI_GDB, "--symbols", image, f"{image}.map", "-o", f"{image}.sym")
        return f"{image}.sym"

    def test_names(self) -> None:
        """nm and objdump -d name static functions; what is loaded is unchanged; readelf has nothing to say."""
        self.link(*self.compile_example(*NO_COPIES))
        copy = self.copy()
        names, before = self.names(copy), self.names("hello")
        self.assertEqual({name: names[name] for name in before}, before)
        self.assertEqual({name: names[name] for name in set(names) - set(before)}, {"call": "t", "composite": "b"})
        self.assertIn("<call>:", self.run_tool("objdump", "-d", copy))
        self.assertNotIn("<call>:", self.run_tool("objdump", "-d", "hello"))
        checked = self.run_program("readelf", "-aW", copy)
        self.assertNotRegex(checked.stdout + checked.stderr, r"(?i)warning|error:")
        self.assertIn("primes below 100: 25", self.run_tool(f"./{copy}"))
        old, new = (self.folder / "hello").read_bytes(), (self.folder / copy).read_bytes()
        start = struct.unpack_from("<Q", old, 40)[0]
        self.assertEqual(old[:40] + old[48:4096], new[:40] + new[48:4096])
        table = ObjectFile(old).headers[-3].offset
        self.assertEqual(old[64:table], new[64:table])
        self.assertGreater(start, table)
        functions = {name.decode(): symbol for name, symbol in ObjectFile(new).symbols()}
        text = ObjectFile(new).headers[functions["call"].section]
        self.assertLessEqual(text.address, functions["call"].value)
        self.assertLess(functions["call"].value + functions["call"].size, text.address + text.size + 1)

    def test_same_names_as_gnu_ld(self) -> None:
        """The local names, their kinds and sizes are those of GNU ld's image of the same objects."""
        objects = self.compile_example(*NO_COPIES)
        self.link(*objects)
        kinds = []
        self.run_tool("ld", "--gc-sections", "-T", "linux.ld", "-o", "gnu", *objects)
        for image in (self.copy(), "gnu"):
            lines = self.run_tool("readelf", "-sW", image).splitlines()
            found = [line.split() for line in lines if re.search(r" LOCAL .* [a-z_]+(\.c)?$", line)]
            kinds.append(sorted((words[7], words[3], words[2]) for words in found if words[3] != "FILE"))
        self.assertEqual(*kinds)

    def test_not_of_one_link(self) -> None:
        """An object that changed, a map of another image, an object that is gone: said, and no file is written."""
        self.link(*self.compile_example())
        text, main = (self.folder / "hello.map").read_bytes(), (self.folder / "main.o").read_bytes()
        self.write("main.o", (self.folder / "text.o").read_bytes())
        self.write("other.map", text.replace(b"section .bss", b"section .bsx"))
        self.write("no image", "no image")
        for image, link_map, why in (("hello", "hello.map", "has changed"),
                                     ("hello", "other.map", "not that of the image"),
                                     ("no image", "hello.map", "the image: ")):
            done = self.run_program(LDI_GDB, "--symbols", image, link_map, "-o", "out")
            self.assertEqual((done.returncode, len(done.stderr.splitlines())), (2, 1), done.stderr)
            self.assertIn(why, done.stderr)
            self.write("main.o", main)
        (self.folder / "main.o").unlink()
        for words in (["--symbols", "hello", "hello.map", "-o", "out"], ["--symbols", "hello", "hello.map"],
                      ["--symbols", "hello", "linux.ld", "-o", "out"], ["none.map"]):
            done = self.run_program(LDI_GDB, *words)
            self.assertIn(done.returncode, (2, 3), done.stderr)
            self.assertTrue(done.stderr.splitlines()[-1].startswith("ldi-gdb: "), done.stderr)
        self.assertFalse((self.folder / "out").exists())

    @needs("perf")
    def test_perf(self) -> None:
        """perf report names a static function of the copy."""
        self.compile("spin.c", SPIN)
        self.write("t.ld", "ENTRY(begin) SECTIONS { . = 0x401000; .text : { *(.text .text.*) } . = ALIGN(4096);"
                           " .bss : { *(.bss .bss.*) } /DISCARD/ : { *(.eh_frame) *(.note.*) } }")
        self.link("spin.o", script="t.ld", image="spin")
        copy = self.copy("spin")
        recorded = self.run_program("perf", "record", "-q", "-e", "cpu-clock:u", "-o", "perf.data", f"./{copy}")
        if recorded.returncode != 0:
            self.skipTest(f"perf cannot record here: {recorded.stderr.strip()[:80]}")
        report = self.run_tool("perf", "report", "-i", "perf.data", "--stdio", "-q", "--sort", "symbol")
        self.assertIn("spin_here", report)
