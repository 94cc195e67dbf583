"""`ld.ldi`: links of files, beside GNU ld where it says the same."""
from __future__ import annotations

import os
import re
import resource
import shutil
import signal
import stat
import struct
import subprocess

from tests.link_map import LinkMap, read_map
from tests.linking import LIMIT, LinkTest, needs
from tests.programs import LD_LDI

FIRMWARE = """ENTRY(reset)
MEMORY {
  flash : ORIGIN = 0x8000, LENGTH = 16K
  ram : ORIGIN = 0x20000, LENGTH = 3M
  none : ORIGIN = 0, LENGTH = 1000
}
SECTIONS {
  .text : { *(.text .text.*) } >flash
  .rodata : { *(.rodata .rodata.*) . = ALIGN(64); } >flash
  .data : { *(.data .data.*) } >ram AT>flash
  .bss : { *(.bss .bss.*) *(COMMON) } >ram
  /DISCARD/ : { *(.eh_frame) *(.note.*) *(.comment) }
}
"""
FIRMWARE_SOURCE = """
int table[100] = {1}, work[300];
const int constants[5] = {1, 2, 3};
int unused(int a) { return a; }
void reset(void) { work[0] = table[1] + constants[2]; for (;;) ; }
"""
WAITING = """
__asm__(".globl _start\\n_start: xorl %eax, %eax\\nxorl %edi, %edi\\nmovq %rsp, %rsi\\nmovl $1, %edx\\nsyscall\\n"
        "movl $60, %eax\\nxorl %edi, %edi\\nsyscall\\n");
"""
PLAIN = "ENTRY(_start) SECTIONS { . = 0x401000; .text : { *(.text .text.*) } /DISCARD/ : { *(.eh_frame) *(.note.*) } }"


class ExampleTest(LinkTest):
    """A program of examples/linux, linked in several ways."""

    def test_link_and_run(self) -> None:
        """The program runs; the map is there; modes; what --gc-sections removed, in GNU ld's words and order."""
        objects = self.compile_example()
        words = ["--gc-sections", "--print-gc-sections", "-T", "linux.ld", "-o", "hello", "-Map=hello.map", *objects]
        done = self.links("--Map-format=ldi", *words)
        self.assertIn("primes below 100: 25", self.run_tool("./hello"))
        link_map = read_map((self.folder / "hello.map").read_bytes())
        self.assertEqual([section.name for section in link_map.sections], [b".text", b".rodata", b".data", b".bss"])
        self.assertEqual(stat.S_IMODE((self.folder / "hello").stat().st_mode), 0o755)
        self.assertEqual(stat.S_IMODE((self.folder / "hello.map").stat().st_mode), 0o644)
        removed = re.findall(r"^ld\.ldi: (removing .*)$", done.stderr, re.M)
        self.assertIn("removing unused section '.text.never_called' in file 'system.o'", removed)
        if shutil.which("ld.bfd"):
            gnu = self.run_program("ld.bfd", *words[:-len(objects)], *objects).stderr
            self.assertEqual(removed, re.findall(r"^.*?: (removing .*)$", gnu, re.M))
        self.assertIn(b"entry", self.links("-M", "--Map-format=ldi", *words).stdout.encode()[:5])

    def test_by_gcc_and_clang(self) -> None:
        """`gcc -B`, with -fuse-ld=bfd too, `clang --ld-path=`; libraries with -l."""
        objects = self.compile_example()
        self.run_tool("ar", "rcs", "libtext.a", "text.o")
        (self.folder / "tools").mkdir()
        for name in ("ld", "ld.bfd"):
            os.symlink(LD_LDI, self.folder / "tools" / name)
        drivers = [["gcc", "-B", str(self.folder / "tools")], ["gcc", "-B", str(self.folder / "tools"), "-fuse-ld=bfd"]]
        if shutil.which("clang"):
            drivers.append(["clang", f"--ld-path={LD_LDI}"])
        for driver in drivers:
            done = self.run_program(*driver, "-static", "-nostdlib", "-Wl,-T,linux.ld,-Map,hello.map,--Map-format=ldi",
                                    "-o", "hello", objects[0], objects[2], "-L.", "-ltext")
            self.assertEqual(done.returncode, 0, done.stderr)
            self.assertIn("primes below 100: 25", self.run_tool("./hello"))
            pieces = read_map((self.folder / "hello.map").read_bytes()).pieces()
            placed = [(piece.object, piece.section) for piece in pieces]
            self.assertIn((b"./libtext.a(text.o)", b".text.write_line"), placed)
            (self.folder / "hello").unlink()

    def test_program_that_runs(self) -> None:
        """A running program is linked anew; the image of a symbolic link's target is replaced; /dev/null stays."""
        self.write("t.ld", PLAIN)
        self.compile("wait.c", WAITING)
        self.links("-T", "t.ld", "-o", "wait", "wait.o")
        os.symlink("wait", self.folder / "link")
        with subprocess.Popen([str(self.folder / "wait")], stdin=subprocess.PIPE) as running:
            self.links("-T", "t.ld", "-o", "wait", "wait.o")
            self.links("-T", "t.ld", "-o", "link", "wait.o")
            self.assertIsNone(running.poll())
            running.communicate(b"x", timeout=LIMIT)
        self.assertEqual(running.returncode, 0)
        self.assertTrue((self.folder / "link").is_symlink())
        self.links("-T", "t.ld", "-o", "/dev/null", "wait.o")
        self.assertTrue(stat.S_ISCHR(os.stat("/dev/null").st_mode))
        names = {path.name for path in self.folder.iterdir()}
        self.assertEqual(names, {"t.ld", "wait.c", "wait.o", "wait", "link"})


class SettingTest(LinkTest):
    """What the command line sets in a link."""

    def test_memory_usage(self) -> None:
        """The table is GNU ld's, to the byte."""
        self.write("t.ld", FIRMWARE)
        self.compile("f.c", FIRMWARE_SOURCE)
        own = self.links("-T", "t.ld", "-o", "own", "f.o", "--print-memory-usage").stdout
        self.assertIn("flash:", own)
        if shutil.which("ld.bfd"):
            gnu = self.run_tool("ld.bfd", "-T", "t.ld", "-o", "gnu", "f.o", "--print-memory-usage")
            self.assertEqual(own, gnu)

    def test_flat_image(self) -> None:
        """`--oformat=binary` is what objcopy makes of the image."""
        self.write("t.ld", FIRMWARE)
        self.compile("f.c", FIRMWARE_SOURCE)
        self.links("-T", "t.ld", "-o", "own", "f.o")
        self.links("-T", "t.ld", "-o", "own.bin", "f.o", "--oformat=binary")
        self.run_tool("objcopy", "-O", "binary", "own", "other.bin")
        self.assertEqual((self.folder / "own.bin").read_bytes(), (self.folder / "other.bin").read_bytes())

    def header(self, name: str) -> int:
        """e_entry of an image."""
        return int(struct.unpack_from("<Q", (self.folder / name).read_bytes(), 24)[0])

    def test_entry_addresses_and_symbols(self) -> None:
        """-e with a name and a number, -Ttext, --section-start, --defsym, --require-defined."""
        self.write("t.ld", FIRMWARE)
        self.compile("f.c", FIRMWARE_SOURCE)
        words = ["-T", "t.ld", "-o", "own", "f.o", "-Map=own.map", "--Map-format=ldi"]
        self.links(*words, "-e", "unused", "-Ttext=8100")
        unused = next(symbol for symbol in self.map().symbols if symbol.name == b"unused")
        self.assertEqual(self.header("own"), unused.value)
        self.assertEqual(self.map().sections[0].start, 0x8100)
        self.links(*words, "--entry=0x8004", "--section-start=.rodata=0x9000")
        self.assertEqual(self.header("own"), 0x8004)
        self.assertEqual(self.map().sections[1].start, 0x9000)
        self.links(*words, "--defsym=limit=0x1234", "--require-defined=reset")
        self.assertIn((0x1234, b"limit"), [(symbol.value, symbol.name) for symbol in self.map().symbols])
        done = self.ld(*words, "--require-defined=nothing")
        self.assertEqual(done.returncode, 2)
        self.assertIn("required symbol `nothing' not defined", done.stderr)

    @needs("ld.bfd")
    def test_addresses_and_loads(self) -> None:
        """-Tdata and --section-start of a section after one that is loaded elsewhere, and of one that takes nothing."""
        self.compile("two.c", "int _start = 1; int other = 2;")
        self.write("t.ld", """SECTIONS { . = 0x10000; .text : AT(0x20000) { *(.data._start) } .data /* here */
            () : { *(.data.other) } .none : { *(.none) } e = .; .bss : { *(.bss) } /DISCARD/ : { *(*) } }""")
        words = ["-T", "t.ld", "-Tdata", "30000", "--section-start=.none=0x70000", "two.o"]
        done = self.links(*words, "-o", "own")
        self.run_tool("ld.bfd", "--no-warn-rwx-segments", *words, "-o", "gnu")
        own, gnu = (self.run_tool("readelf", "-lW", name) for name in ("own", "gnu"))
        loads = [[line.split()[2:4] for line in text.splitlines() if "LOAD" in line] for text in (own, gnu)]
        self.assertEqual(loads[0], loads[1])
        names = [[line.split()[0] for line in self.run_tool("nm", name).splitlines() if line.endswith(" e")]
                 for name in ("own", "gnu")]
        self.assertEqual(names[0], names[1])
        self.assertNotIn("changed", done.stderr)
        self.assertIn("the address of .no", self.ld(*words, "-o", "own", "--section-start=.no=1").stderr)

    @needs("ld.bfd")
    def test_defsym_and_undefined(self) -> None:
        """--defsym before -T and after it, and -u of what the script PROVIDEs, as GNU ld has them."""
        self.compile("one.c", "int _start;")
        self.write("t.ld", """base = DEFINED(base) ? base : 0x9000; PROVIDE(low = base - 1); PROVIDE(high = base + 1);
                              SECTIONS { . = base; .data : { *(.bss .bss.*) _end = .; } /DISCARD/ : { *(*) } }""")
        for number, line in enumerate(("-T t.ld --defsym=base=0x8000", "--defsym base=0x8000 -T t.ld",
                                       "-dT t.ld --defsym=base=0x8000", "-T t.ld -u low")):
            words = line.split()
            self.links(*words, "-o", "own", "-Map=own.map", "--Map-format=ldi", "one.o")
            self.run_tool("ld.bfd", "--no-warn-rwx-segments", *words, "-o", "gnu", "one.o")
            lines = [line.split() for line in self.run_tool("nm", "gnu").splitlines()]
            theirs = {(int(found[0], 16), found[2].encode()) for found in lines if len(found) == 3}
            ours = {(symbol.value, symbol.name) for symbol in self.map().symbols if symbol.value is not None}
            self.assertEqual({one for one in ours if not one[1].startswith(b"ldi.")}, theirs, number)

    def map(self) -> LinkMap:
        """The map of the last link."""
        return read_map((self.folder / "own.map").read_bytes())

    def test_without_script(self) -> None:
        """GNU ld's default script, or where GNU ld is not there one of this package; also with -N and -Ttext."""
        objects = self.compile_example()
        self.write("symbols.ld", "")
        for path in (os.environ["PATH"], ""):
            tools = self.folder / "none"
            tools.mkdir(exist_ok=True)
            env = {"PATH": path or str(tools)}
            done = self.ld("-o", "hello", "--defsym=image_start=0x400000", "--defsym=image_end=0x400000", *objects,
                           env=env)
            self.assertEqual(done.returncode, 0, done.stderr)
            self.assertIn("primes below 100: 25", self.run_tool("./hello"))
        self.compile("boot.s", ".globl boot\nboot: jmp boot\n.data\n.byte 7\n")
        self.links("-N", "-Ttext", "0x7c00", "-e", "boot", "--oformat=binary", "-o", "boot.bin", "boot.o")
        self.assertLess((self.folder / "boot.bin").stat().st_size, 64)

    def test_version(self) -> None:
        """The first line begins with `GNU ld (ldi ` and ends in a version, which the kernel's script takes for one."""
        for words in (["--version"], ["-v"], ["-V"], ["-m", "elf_x86_64", "-z", "max-page-size=0x200000", "-v"]):
            first = self.links(*words).stdout.splitlines()[0]
            self.assertRegex(first, r"^GNU ld \(ldi [^)]+\) [0-9]+\.[0-9]+$")
            major, minor = first.split()[-1].split(".")
            self.assertGreaterEqual(10000 * int(major) + 100 * int(minor), 22500)
        self.assertNotEqual(self.ld("--no-such-option", "-v").returncode, 0)
        self.assertIn("elf_x86_64", self.links("--help").stdout)
        self.assertIn("SECTIONS", self.links("--verbose").stdout)


class RefusedTest(LinkTest):
    """What is no link of this linker, and faults."""

    def test_fallback(self) -> None:
        """`-r` and objects outside the profile: refused by one line, or made by the linker of LDI_FALLBACK."""
        self.write("t.ld", PLAIN)
        self.compile("a.c", "extern __thread int other; int _start(void) { return other; }\n")
        self.compile("b.c", "__thread int other;\n")
        for words, reason in (
            (["-r", "-o", "out", "a.o", "b.o"], "-r: relocatable output"),
            (["-m", "elf_i386", "-o", "out", "a.o"], "-m elf_i386: unsupported machine"),
            (["-T", "t.ld", "-o", "out", "a.o", "b.o"], "a.o"),
        ):
            done = self.ld(*words)
            self.assertEqual(done.returncode, 2, done.stderr)
            self.assertIn("LDI_FALLBACK names no linker", done.stderr.splitlines()[-1])
            self.assertIn(reason, done.stderr)
            self.assertFalse((self.folder / "out").exists())
        other = self.write("other", "#!/bin/sh\necho \"$LDI_FALLBACK|$@\" > called\nexit 7\n")
        other.chmod(0o755)
        done = self.ld("-r", "-o", "out", "a.o", "@words", env={"LDI_FALLBACK": str(other)})
        self.assertEqual(done.returncode, 7)
        self.assertIn(f"-r: relocatable output: linked by {other}", done.stderr)
        self.assertEqual((self.folder / "called").read_text(encoding="utf-8"), "none|-r -o out a.o @words\n")
        done = self.ld("-r", "a.o", env={"LDI_FALLBACK": "no-such-linker"})
        self.assertEqual(done.returncode, 3)

    def test_missing(self) -> None:
        """Files that are not there, no inputs, a script that is none: a line each, and no traceback."""
        self.write("t.ld", PLAIN)
        self.compile("a.s", ".globl _start\n_start: nop\n")
        self.write("bad.ld", "SECTIONS { .text : { *(.text)\n")
        for words, status, text in (
            (["-T", "t.ld", "none.o"], 3, "cannot find none.o: No such file or directory"),
            (["-T", "none.ld", "a.o"], 3, "cannot open linker script file none.ld"),
            (["-T", "t.ld", "a.o", "-lnone"], 3, "cannot find -lnone"),
            (["-T", "t.ld"], 2, "no input files"),
            (["-T", "t.ld", "-T", "t.ld", "a.o"], 2, "appears multiple times"),
            (["-T", "bad.ld", "a.o"], 2, "bad.ld"),
            (["-T", "t.ld", "t.ld", "a.o"], 2, "a script is -T's"),
            (["-T", "t.ld", "a.o", "-o", "none/out"], 3, "none/out: No such file or directory"),
            (["-T", "t.ld", "a.o", "-o", "/dev/full"], 3, "/dev/full: No space left on device"),
            (["-T", "t.ld", "a.o", "-Map=none/"], 3, "none/: Is a directory"),
            (["-T", "t.ld", "a.o", "-o", "./a.o"], 2, "input file 'a.o' is the same as output file"),
            (["-T", "t.ld", "a.o", "-Map=t.ld"], 2, "input file 't.ld' is the same as output file"),
        ):
            with self.subTest(words=words):
                done = self.ld(*words)
                self.assertEqual(done.returncode, status, done.stderr)
                self.assertIn(text, done.stderr)
                self.assertNotIn("Traceback", done.stderr)

    def test_no_entry(self) -> None:
        """Without ENTRY and -e: the symbol `start`, else the start of .text, as GNU ld does; 0 without .text."""
        script = "SECTIONS { . = 0x401000; .ro : { *(.rodata) } %s : { *(.text) } }\n"
        for name, output in (("start", ".text"), ("other", ".text"), ("other", ".code")):
            with self.subTest(name=name, output=output):
                self.write("t.ld", script % output)
                self.compile("a.s", f".section .rodata\n.byte 1\n.text\nnop\n.globl {name}\n{name}: nop\n")
                self.links("-T", "t.ld", "a.o", "-o", "own")
                self.run_tool("ld.bfd", "-T", "t.ld", "a.o", "-o", "other")
                own, other = ((self.folder / image).read_bytes()[24:32] for image in ("own", "other"))
                self.assertEqual(own, other)

    def test_faults(self) -> None:
        """Faults are said, the status is 1, and the old image stays."""
        objects = self.compile_example()
        self.write("hello", "old")
        done = self.ld("-T", "linux.ld", "-o", "hello", "--orphan-handling=warn", objects[0], objects[2])
        self.assertEqual(done.returncode, 1)
        self.assertIn("F12 main.o", done.stderr)
        self.assertEqual((self.folder / "hello").read_bytes(), b"old")

    def test_full_disk(self) -> None:
        """Where the image cannot be written whole, the old one stays, and nothing else."""
        objects = self.compile_example()
        self.write("hello", "old")
        before = {path.name for path in self.folder.iterdir()}

        def limit() -> None:
            signal.signal(signal.SIGXFSZ, signal.SIG_IGN)
            resource.setrlimit(resource.RLIMIT_FSIZE, (5000, 5000))

        done = subprocess.run([str(LD_LDI), "-T", "linux.ld", "-o", "hello", *objects], cwd=self.folder, check=False,
                              capture_output=True, text=True, timeout=LIMIT, preexec_fn=limit)
        self.assertEqual(done.returncode, 3, done.stderr)
        self.assertNotIn("Traceback", done.stderr)
        self.assertEqual((self.folder / "hello").read_bytes(), b"old")
        self.assertEqual({path.name for path in self.folder.iterdir()}, before)

    @needs("ld.bfd")
    def test_report_of_the_script(self) -> None:
        """What is changed in the script is always said, the rest with --verbose, and what is left is an error."""
        self.compile("a.s", ".globl _start\n_start: nop\n")
        self.write("t.ld", f"OUTPUT_ARCH(i386:x86-64)\nPHDRS {{ text PT_LOAD FLAGS(7); }}\n{PLAIN}")
        quiet = self.links("-T", "t.ld", "-o", "out", "a.o").stderr
        loud = self.links("-T", "t.ld", "-o", "out", "a.o", "--verbose").stderr
        self.assertNotIn("dropped", quiet)
        self.assertIn("t.ld:1: dropped", loud)
        self.assertEqual([line for line in loud.splitlines() if ": changed: " in line],
                         [line for line in quiet.splitlines() if ": changed: " in line])
        self.write("t.ld", "SECTIONS { OVERLAY 0x1000 : { .x { *(.x) } .y { *(.y) } } }\n")
        done = self.ld("-T", "t.ld", "-o", "out2", "a.o")
        self.assertEqual(done.returncode, 2, done.stderr)
        self.assertFalse((self.folder / "out2").exists())
