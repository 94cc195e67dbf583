"""Sections that are not loaded: debug information, `.comment`, what scripts place, each beside GNU ld's."""
from __future__ import annotations

import shutil
import struct
import subprocess
from typing import NamedTuple

from tests.images import ALLOC, NOBITS
from tests.programs import LD_LDI, OutsideTest, needs
from tests.symbol_table import read_table
from tests.test_watch_commands import FolderTest
from tests.watching import PATIENCE, Watching, wait_until

SCRIPT = """ENTRY(_start)
SECTIONS { . = 0x400000; .text : { *(.text .text.*) } .rodata : { *(.rodata*) } .eh_frame : { *(.eh_frame) }
           . = ALIGN(4096); .data : { *(.data*) } .bss : { *(.bss*) *(COMMON) } /DISCARD/ : { *(.note*) } }
"""
PLACED = SCRIPT.replace("/DISCARD/", """.comment 0 : { *(.comment) }
  .debug_info 0 : { *(.debug_info .gnu.linkonce.wi.*) } .debug_abbrev 0 : { *(.debug_abbrev) }
  .debug_line 0 : { *(.debug_line .debug_line.*) } .debug_str 0 : { *(.debug_str) }
  .debug_all 0 : { *(.debug_*) } /DISCARD/""")
TYPES = SCRIPT.replace(".data :", ".info 0x10 (INFO) : { *(.info) . = ALIGN(8); LONG(0x1234) } .data :")
NONE = {"LDI_FALLBACK": "none"}
MAIN = """extern int counter; extern int twice(int); int table[4] = {1, 2, 3, 4};
static int sum(int count) { int all = 0; for (int at = 0; at < count; at++) all += table[at] * at; return all; }
int dead(int x) { int y = 3 * x; for (int at = 0; at < x; at++) y += sum(at); return y; }
int main(void) { return twice(sum(4)) + counter; }
void _start(void) { main(); for (;;); }
"""
OTHER = """int counter; static int once; struct point { int x, y; } origin = {1, 2};
int twice(int number) { once++; struct point here = origin; return 2 * number + here.x + once; }
int never(int number) { return number + counter; }
"""
CLASSES = """template <class T> struct Box { T value; Box(T v) : value(v) {} virtual T get() const { return value; }
  T more(T other) const { T all = value; for (int at = 0; at < 3; at++) all += other * at; return all; } };
inline int shared(int x) { static int calls; return x + ++calls; }
extern "C" int NAME(int x) { Box<int> box(x); Box<long> wide(x);
  return box.more(2) + shared(box.get()) + (int)wide.more(3); }
"""


STABS = """ .globl NAME
 .stabs "NAME.c",100,0,0,.Ltext
 .text
.Ltext: .stabs "int:t(0,1)=r(0,1);0;127;",128,0,0,0
 .stabs "shared.h",130,0,0,0
 .stabs "point:T(FILE,1)=s8x:(0,1),0,32;;",128,0,0,0
 .stabs "inner.h",130,0,0,0
 .stabs "deep:t(2,1)=(0,1)",128,0,0,0
 .stabn 162,0,0,0
 .stabn 162,0,0,0
 .stabs "own.h",130,0,0,0
 .stabs "NAME_count:t(0,4)=(0,1)",128,0,0,0
 .stabn 162,0,0,0
 .stabs "NAME:F(0,1)",36,0,3,NAME
NAME: call CALLED
 .stabn 68,0,3,.Lreturn-NAME
.Lreturn: ret
.Lend: .stabs "",36,0,0,.Lend-NAME
 .section .text.gone,"ax"
 .stabs "gone:f(0,1)",36,0,7,gone
gone: ret
 .stabn 68,0,3,.Lgone-gone
.Lgone: .stabs "",36,0,0,.Lgone-gone
 .stabs "lost:S(0,1)",38,0,0,lost
 .stabs "kept:S(0,1)",38,0,0,kept
 .section .data.lost,"aw"
lost: .long 4
 .data
kept: .quad NAME
"""


class Header(NamedTuple):
    """A section that is not loaded."""

    name: str
    kind: int
    flags: int
    address: int
    size: int
    align: int
    entry_size: int
    data: bytes


def unloaded(image: bytes) -> list[Header]:
    """Those of an image, but for the tables of symbols and names."""
    (headers,) = struct.unpack_from("<Q", image, 40)
    number, names_in = struct.unpack_from("<HH", image, 60)
    rows = [struct.unpack_from("<IIQQQQIIQQ", image, headers + 64 * index) for index in range(number)]
    names = image[rows[names_in][4]:]
    found = []
    for name, kind, flags, address, offset, size, _, _, align, entry_size in rows[1:]:
        text = names[name : names.index(b"\0", name)].decode()
        if not flags & ALLOC and text not in (".symtab", ".strtab", ".shstrtab"):
            data = b"" if kind == NOBITS else image[offset : offset + size]
            found.append(Header(text, kind, flags, address, size, align, entry_size, data))
    return found


@needs("ld.bfd")
class UnloadedTest(OutsideTest):
    """Links with debug information."""

    def setUp(self) -> None:
        """Scripts."""
        super().setUp()
        self.write("t.ld", SCRIPT)
        self.write("placed.ld", PLACED)

    def same(self, *words: str) -> list[Header]:
        """Both linkers write the same; gives what."""
        done = self.links(*words, "-o", "own", env=NONE)
        self.assertEqual([line for line in done.stderr.splitlines() if "strip-all" not in line], [])
        self.must("ld.bfd", *words, "-o", "gnu")
        own, gnu = unloaded(self.read("own")), unloaded(self.read("gnu"))
        self.assertEqual([one[:-1] for one in own], [one[:-1] for one in gnu], words)
        for one, other in zip(own, gnu):
            self.assertTrue(one.data == other.data, f"{words}: {one.name}")
        return own

    def programs(self, *flags: str) -> list[str]:
        """The objects of a program."""
        return [self.compile("main.c", MAIN, *flags), self.compile("other.c", OTHER, *flags)]

    def lines(self, name: str) -> str:
        """The lines of an image, as readelf decodes them."""
        return self.must("readelf", "--debug-dump=decodedline", name)

    def test_formats(self) -> None:
        """DWARF of three versions, with and without optimization, by two scripts; the lines are GNU ld's."""
        for flags in (["-g"], ["-g", "-O0"], ["-gdwarf-4"], ["-gdwarf-3"], ["-g3"],
                      ["-gdwarf-4", "-ffunction-sections", "-fdata-sections"], ["-g", "-ffunction-sections"]):
            objects = self.programs(*flags)
            for script in ("t.ld", "placed.ld"):
                found = self.same("-T", script, *objects)
                self.assertIn(".debug_info", [one.name for one in found])
                self.assertEqual(self.lines("own"), self.lines("gnu").replace("gnu:", "own:"))
        self.same(*objects)

    def test_collected(self) -> None:
        """What says of sections that `--gc-sections` or the script leaves out has what GNU ld puts there."""
        for flags in (["-gdwarf-4"], ["-g"]):
            objects = self.programs("-ffunction-sections", "-fdata-sections", *flags)
            found = self.same("--gc-sections", "-T", "t.ld", *objects)
            ranges = next((one for one in found if one.name == ".debug_ranges"), None)
            self.assertEqual(ranges is not None, flags == ["-gdwarf-4"])
            if ranges is not None:
                self.assertIn(struct.pack("<QQ", 1, 1), ranges.data)
            self.write("discard.ld", SCRIPT.replace("*(.note*)", "*(.note*) *(.text.never) *(.text.dead)").replace(
                "*(.text .text.*)", "*(.text .text.[^nd]*)"))
            self.same("-T", "discard.ld", *objects)

    @needs("g++")
    def test_groups(self) -> None:
        """C++: debug information of what is in another object is of the copy that is kept."""
        objects = [self.compile("main.c", "int one(int), two(int); void _start(void) { one(two(1)); }\n", "-g")]
        flags = ["-O1", "-fno-pic", "-ffreestanding", "-fno-exceptions", "-fno-rtti", "-fno-threadsafe-statics",
                 "-fno-asynchronous-unwind-tables", "-fno-stack-protector", "-g"]
        for name in ("one", "two"):
            self.write(f"{name}.cc", CLASSES)
            for more in (["-O0"], ["-fdebug-types-section"], []):
                self.must("g++", *flags, *more, f"-DNAME={name}", "-c", f"{name}.cc", "-o",
                          f"{name}{len(more)}{more[0][1] if more else ''}.o")
        for end in ("0", "1O", "1f"):
            self.same("-T", "t.ld", *objects, f"one{end}.o", f"two{end}.o")
            self.same("--gc-sections", "-T", "t.ld", *objects, f"two{end}.o", f"one{end}.o")

    def test_compressed(self) -> None:
        """`-gz`: sections of objects that are compressed."""
        self.same("-T", "t.ld", *self.programs("-g", "-gz=zlib", "-g3"))
        self.same("-T", "t.ld", self.compile("main.c", MAIN, "-g"), self.compile("other.c", OTHER, "-gz=zlib", "-g"))
        self.same("-T", "t.ld", *self.programs("-g", "-gz=zlib-gnu"))

    @needs("clang")
    def test_clang(self) -> None:
        """Objects of clang."""
        for name, text in (("main", MAIN), ("other", OTHER)):
            self.write(f"{name}.c", text)
            self.must("clang", "-O1", "-g", "-ffreestanding", "-fno-pic", "-fno-asynchronous-unwind-tables", "-c",
                      f"{name}.c")
        self.same("-T", "t.ld", "main.o", "other.o")

    def test_stabs(self) -> None:
        """Stabs: one table of names, headers once, nothing of code that is not in the image."""
        objects = []
        for number, (name, called) in enumerate((("first", "second"), ("second", "first"), ("third", "first"))):
            text = STABS.replace("CALLED", called).replace("NAME", name).replace("FILE", str(number + 1))
            objects.append(self.compile(f"{name}.s", text.replace("x:(0", "y:(0") if name == "third" else text))
        placed = ".stab 0 : { *(.stab) } .stabstr 0 : { *(.stabstr) } .debug_all 0"
        self.write("stabs.ld", PLACED.replace(".debug_all 0", placed))
        plain = self.compile("plain.s", " .data\n .long 1\n")
        for words in ([], ["--gc-sections"], ["-T", "t.ld"], ["-T", "stabs.ld", "--gc-sections"]):
            found = self.same("-e", "first", *words, plain, *objects)
            self.assertEqual([one.name for one in found if one.name.startswith(".stab")], [".stab", ".stabstr"])
            rows = self.must("objdump", "-G", "own")
            self.assertIn("EXCL", rows)
            self.assertEqual("gone:f(0,1)" in rows, "--gc-sections" not in words)
        self.same("-S", *objects[:2], "-e", "first")
        self.write("data.ld", PLACED.replace(".debug_all 0", ".stab 0 (INFO) : { *(.stab) BYTE(0) } .debug_all 0"))
        self.same("-T", "data.ld", *objects, "-e", "first")

    def test_strip(self) -> None:
        """`-S` and `-s` leave debug information out."""
        objects = self.programs("-g")
        for word in ("-S", "--strip-debug", "-s", "--strip-all"):
            for script in ("t.ld", "placed.ld"):
                self.assertEqual([one.name for one in self.same(word, "-T", script, *objects)], [".comment"])

    def test_comment_and_others(self) -> None:
        """`.comment` of several compilers is merged; sections without ALLOC and strings of all kinds; `(INFO)`."""
        text = """ .globl _start\n_start: ret\n .section .comment,"MS",@progbits,1\n .string "x y"\n .string "y"
 .string ""\n .section .own,"",@progbits\n .quad _start, 5\n .long .Lhere\n .Lhere: .byte 1
 .section .strings,"MS",@progbits,1
 .string "abc"\n .string "bc"\n .byte 0,0\n .string "c"
 .section .refers,""\n .long .strings + 4, .strings + 5, .strings\n .long .strings + 9
 .section .info,"a"\n .quad _start\n .byte 7\n"""
        words = [self.compile("a.s", text),
                 self.compile("b.s", text.replace("_start", "other").replace("x y", "z x y"))]
        for script in (SCRIPT.replace("*(.note*)", "*(.note*) *(.info)"), TYPES):
            self.write("own.ld", script)
            found = {one.name for one in self.same("-T", "own.ld", *words)}
            self.assertLessEqual({".comment", ".own", ".strings", ".refers"}, found)
        self.assertIn(".info", found)

    def test_what_follows(self) -> None:
        """`.`, SIZEOF and names go by strings that are merged, in `.comment` and in a section of type INFO."""
        text = """ .globl NAME\nNAME: ret\n .section .comment,"MS",@progbits,1\n .string "one"\n .string "NAME"
 .section .rodata.str1.1,"aMS",@progbits,1\n .globl text_NAME\n .string "both"\ntext_NAME: .string "a NAME"
 .section .rodata.cst8,"aM",@progbits,8\n .quad 7
 .section .own,"",@progbits\n .quad text_NAME, .rodata.str1.1 + 1\n"""
        names = [self.compile(f"{name}.s", text.replace("NAME", name)) for name in ("_start", "start", "other")]
        info = ".info (INFO) : { *(.rodata*) }"
        for section in (".comment : { *(.comment) }", info, info.replace("}", "BYTE(1) }")):
            self.write("own.ld",
                       f"SECTIONS {{ . = 0x1000; .text : {{ *(.text) }} {section} .data : {{ LONG(1) }} last = .; "
                       "size = SIZEOF(.comment); .comment 0 : { *(.comment) } .own 0 : { *(.own) } }")
            self.same("-T", "own.ld", *names)
            self.assertEqual(read_table(self.read("own")), read_table(self.read("gnu")))

    def test_fill(self) -> None:
        """What fills gaps between input sections; a section of a gap alone has zeros, as nothing is written in it."""
        text = " .globl NAME\nNAME: ret\n .data\n .balign 8\n .byte 1\n .section .own,\"\"\n .balign 4\n .byte 2\n"
        names = [self.compile(f"{name}.s", text.replace("NAME", name)) for name in ("_start", "other")]
        sections = (".info (INFO) : { *(.data) } =0x11223344", ".info (INFO) : { *(.data) } .own 0 : { *(.own) } =0x90",
                    ".info (DSECT) : { . += 16; } =0x90", ".info (COPY) : { FILL(0x91) . += 16; *(.data) }")
        for section in sections:
            self.write("own.ld", f"SECTIONS {{ . = 0x1000; .text : {{ *(.text) }} {section} .data : {{ *(.data) }} }}")
            self.same("-T", "own.ld", *names)

    def test_loaded_strings(self) -> None:
        """References to strings that are loaded and merged, by sections and by symbols."""
        text = """ .globl NAME\nNAME: mov $.Ltext, %edi\n ret
 .section .rodata.str1.1,"aMS",@progbits,1\n .string "FIRST"\n .Ltext: .string "bc"
 local: .string "SECOND"\n .section .own,"",@progbits\n .quad .rodata.str1.1 + 6, local, .Ltext
 .quad .rodata.str1.1, local + 1\n"""
        names = [self.compile(f"{name}.s", text.replace("NAME", name).replace("FIRST", first).replace("SECOND", second))
                 for name, first, second in (("_start", "abc", "x"), ("other", "dabc", "abc"), ("third", "x", "x"))]
        self.same("-T", "t.ld", *names)

    def test_much(self) -> None:
        """More than a megabyte, which several threads write."""
        names = [self.compile("main.c", MAIN, "-g")]
        names.append(self.compile("other.c", OTHER, "-g"))
        for number in range(3):
            many = "\n".join(f"int f{number}_{at}(int x) {{ return x * {at}; }}" for at in range(4000))
            names.append(self.compile(f"many{number}.c", many, "-g", "-O0"))
        found = self.same("-T", "t.ld", *names)
        self.assertGreater(sum(one.size for one in found), 1 << 20)

    @needs("gdb")
    def test_gdb(self) -> None:
        """gdb finds lines and functions in the whole file."""
        self.links("-T", "t.ld", *self.programs("-g", "-O0"), "-o", "own", env=NONE)
        said = self.must("gdb", "-batch", "-ex", "info line main", "-ex", "break twice", "-ex", "ptype origin", "own")
        self.assertIn('Line 4 of "main.c" starts at address', said)
        self.assertIn("Breakpoint 1 at", said)
        self.assertIn("file other.c, line 2.", said)
        self.assertIn("int x;", said)

    def test_unknown_relocation(self) -> None:
        """A relocation that no section of debug information has goes to GNU ld."""
        name = self.compile("a.s", ' .globl _start\n_start: ret\n .section .odd,""\n .quad _start@GOTOFF\n')
        done = self.ld("-T", "t.ld", name, "-o", "own", env=NONE)
        self.assertEqual(done.returncode, 2)
        self.assertIn(".odd, which is not loaded: relocations of type 25", done.stderr)
        done = self.links("-T", "t.ld", name, "-o", "own")
        self.assertIn("linked by ld.bfd", done.stderr)

    def test_later_calls(self) -> None:
        """A later call gives the bytes of a link from scratch, with a build ID of all of them."""
        words = ["--build-id", "-T", "placed.ld", *self.programs("-g", "-ffunction-sections"), "--gc-sections"]
        self.write("placed.ld", PLACED.replace("*(.note*)", "").replace(".rodata :", ".n : { *(.note.*) } .rodata :"))
        for text in (MAIN, MAIN.replace("* at", "+ at"), MAIN.replace("return twice", "\n\n\nreturn 3 * twice"),
                     MAIN.replace("int main(", "int more(int a) { return dead(a); }\nint main("), MAIN):
            self.compile("main.c", text, "-g", "-ffunction-sections")
            self.serves(*words, "-o", "served", env=NONE)
            self.same(*words)
            self.assertEqual(self.read("served"), self.read("own"))
        self.assertEqual(self.calls(), 4)


@needs("gcc")
class WatchUnloadedTest(FolderTest):
    """`ldi-watch` over objects with debug information and a script of GNU ld."""

    def test_edits(self) -> None:
        """After each edit the file is that of `ld.ldi`."""
        self.folder.put("t.ld", PLACED.encode())

        def compile_one(name: str, text: str) -> None:
            (self.folder / f"{name}.c").write_text(text)
            subprocess.run(["gcc", "-O1", "-g", "-ffreestanding", "-fno-pic", "-fno-asynchronous-unwind-tables",
                            "-fno-stack-protector", "-c", f"{name}.c", "-o", f"{name}.new"], cwd=self.folder.path,
                           check=True)
            shutil.move(str(self.folder / f"{name}.new"), str(self.folder / f"{name}.o"))

        compile_one("main", MAIN)
        compile_one("other", OTHER)
        watching = Watching(self.folder, names=["--build-id=none", "main.o", "other.o"])
        self.addCleanup(watching.end)
        for text in (OTHER.replace("2 *", "3 *"), "\n\n" + OTHER, OTHER.replace("+ once", "+ once * number")):
            watching.wait_for("linked")
            subprocess.run([LD_LDI, "-T", "t.ld", "main.o", "other.o", "-o", "once"], cwd=self.folder.path, check=True,
                           capture_output=True, timeout=PATIENCE)
            expected = (self.folder / "once").read_bytes()
            self.assertIn(".debug_line", [one.name for one in unloaded(expected)])
            self.assertTrue(wait_until(lambda expected=expected: self.folder.image() == expected, 5))
            compile_one("other", text)
