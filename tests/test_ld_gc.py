"""`ld.ldi --gc-sections`: what stays is what stays for GNU ld, and nothing moves."""
from __future__ import annotations

from tests.linking import BesideGnu, needs

SCRIPT = """ENTRY(_start) {before}
SECTIONS {{ . = 0x10000; .text : {{ *(.text*) }} .data : {{ {inside} *(.data*) *(.bss) *(COMMON) }}
  cmds : {{ *(cmds) }} .rest : {{ *(.note*) *(.alias*) *(.retained) *(.second) }} {after}
  /DISCARD/ : {{ *(.eh_frame) *(.comment) }} }}
"""
PARTS = """
 .globl _start, unused, usym, alias, x1
 .section .text._start,"ax"
_start: call used
 .if SAYS_START
 mov $__start_cmds, %eax
 mov $__stop_cmds, %ebx
 .endif
 .if SAYS_ALIAS
 mov $alias, %eax
 .endif
 ret
 .section .text.used,"ax"
used: nop
 .section .text.unused,"ax"
unused: nop
 nop
 .section .text._init,"ax"
 .globl _init
_init: .byte 1
 .section .text._fini,"ax"
 .globl _fini
_fini: .byte 2
 .section .text.start,"ax"
 .globl start
start: .byte 3
 .section .text.usym,"ax"
 .globl usym
usym: .byte 4
 .quad of_usym
 .section .data.of_usym,"aw"
of_usym: .byte 5
 .section .note.one,"a",@note
 .long 4, 4, 1
 .asciz "one"
 .long 6
 .section cmds,"a"
 .quad command
 .section .text.command,"ax"
command: .byte 7
 .section .retained,"aR"
 .byte 8
 .section .second,"a"
 .byte 9
 .section .alias1,"a"
x1: .byte 10
 .section .data.zz,"aw"
 .globl hidden, shown
 .hidden hidden
hidden: .byte 11
 .section .data.shown,"aw"
shown: .byte 12
"""
OTHER = """
 .section cmds,"a"
 .quad command2
 .section .text.command2,"ax"
command2: .byte 17
 .section .data.x,"aw"
 .byte 18
 .section .data.y,"awR"
 .byte 19
 .section .data.z,"aw"
 .byte 20
 .section .text.c,"ax"
 .globl from_common
from_common: .quad block_a
 .comm block_a,4,4
 .comm block_b,16,4
 .comm block_c,8,4
"""


@needs("ld.bfd")
class CollectingTest(BesideGnu):
    """Each link is made by both; the symbols and the bytes are the same."""

    def setUp(self) -> None:
        """Objects with sections of many kinds, each of some bytes of its own."""
        super().setUp()
        for name, start, alias in (("plain", 0, 0), ("bounds", 1, 0), ("named", 0, 1)):
            self.compile(f"{name}.s", PARTS, f"-Wa,--defsym,SAYS_START={start},--defsym,SAYS_ALIAS={alias}")
        self.compile("other.s", OTHER)

    def script(self, before: str = "", inside: str = "", after: str = "") -> None:
        """A script with something before SECTIONS, in `.data`, and at the end."""
        self.write("t.ld", SCRIPT.format(before=before, inside=inside, after=after))

    def collects(self, *words: str) -> None:
        """A link with --gc-sections."""
        with self.subTest(words=words, script=(self.folder / "t.ld").read_text(encoding="utf-8")):
            self.both("--gc-sections", "-T", "t.ld", *words)
            self.assertTrue((self.folder / "own").exists())

    def test_names(self) -> None:
        """-u, --require-defined, EXTERN, -init and -fini, the entry and what stands for it."""
        self.script()
        for words in ("plain.o", "plain.o other.o -u usym", "plain.o --require-defined=usym", "plain.o -init usym",
                      "plain.o -fini unused -init=start", "other.o plain.o -e unused", "plain.o -e usym -u unused",
                      "plain.o --gc-keep-exported", "plain.o other.o -u from_common", "other.o plain.o -u block_b"):
            self.collects(*words.split())
        self.script("EXTERN(usym) EXTERN(shown)")
        self.collects("plain.o")
        self.script("entry = usym; ENTRY(entry)")
        self.collects("plain.o", "other.o")
        self.write("t.ld", SCRIPT.replace("ENTRY(_start)", "").format(before="", inside="", after=""))
        self.collects("plain.o", "other.o")

    def test_groups_that_are_left_out(self) -> None:
        """KEEP of a section that is left out with its group: what that refers to is kept all the same."""
        text = '.globl {0}\n{0}: ret\n.section .text.of_{0},"ax"\nof_{0}: .byte 5, 6\n' \
               '.section .data.once,"awG",@progbits,once,comdat\n.weak once\nonce: .quad of_{0}\n'
        names = [self.compile(f"{name}.s", text.format(name)) for name in ("_start", "other", "third")]
        for kept in ("KEEP(*(.data.once))", "KEEP(third.o(.data.*)) *(.data.once)", "*(.data.once)"):
            self.write("t.ld",
                       "ENTRY(_start) SECTIONS { . = 0x1000; .text : { *(.text .text.*) } .data : { %s } }" % kept)
            self.collects(*names)

    def test_bounds(self) -> None:
        """`__start_NAME` keeps the sections NAME, but where the script assigns it, or by -z start-stop-gc."""
        for before, inside in (("", ""), ("__start_cmds = 4; __stop_cmds = 5;", ""),
                               ("PROVIDE(__start_cmds = 4);", ""), ("", "PROVIDE(__stop_cmds = .);"),
                               ("__start_cmds = 4;", "")):
            self.script(before, inside)
            self.collects("bounds.o", "other.o")
        self.script("__start_cmds = 4; __stop_cmds = 5;")
        self.collects("bounds.o", "other.o", "-z", "start-stop-gc", "-z", "nostart-stop-gc")
        self.script("PROVIDE(__start_cmds = 4); PROVIDE(__stop_cmds = 4);")
        done = self.links("--gc-sections", "-T", "t.ld", "bounds.o", "-o", "own", "-z", "start-stop-gc")
        self.assertIn("changed: --gc-sections: -z start-stop-gc: PROVIDE of __start_cmds, __stop_cmds", done.stderr)
        self.script()
        self.collects("plain.o", "other.o", "--defsym=__start_cmds=1", "-u", "__start_cmds")

    def test_aliases(self) -> None:
        """A name that the script assigns another name keeps that one's section."""
        for before, inside in (("alias = x1;", ""), ("PROVIDE(alias = x1);", ""), ("", "alias = x1;"),
                               ("alias = (x1);", ""), ("between = x1; alias = between;", ""),
                               ("alias = 1 ? x1 : 0;", ""), ("alias = DEFINED(nothing) ? nothing : x1;", "")):
            self.script(before, inside)
            self.collects("named.o", "other.o")
        self.script("alias = 5;")
        self.collects("named.o", "other.o")

    def test_statements(self) -> None:
        """KEEP of a later statement; the rows of statements of which a part is kept stay as they are."""
        self.script(after=".again : { KEEP(*(.second .retained)) }")
        self.collects("plain.o", "other.o")
        for inside in ("*(.data.z .data.y)", "*(SORT_BY_NAME(.data.*))", "*(SORT_BY_ALIGNMENT(.data.*))",
                       "*(EXCLUDE_FILE(plain.o) .data.*)", "/* KEEP( */ *(.data.*) BYTE(1) x = .;", "KEEP(*(.data.x))",
                       "*(.data.* .retained COMMON)"):
            self.script(inside=inside, after=".again : { KEEP(*other.o(.data.z)) KEEP(*(.data.o*)) }")
            self.collects("plain.o", "other.o", "-u", "from_common", "-u", "usym")
            self.collects("other.o", "plain.o", "-u", "from_common", "-u", "usym")

    def test_archives(self) -> None:
        """KEEP of what is in an archive keeps nothing of objects that are in none, and the members' sections."""
        self.compile("member.s", """ .globl of_member\n .section .text.member,"ax"\nof_member: .byte 21\n
            .section .data.x,"aw"\n .byte 22\n .section .data.w,"aw"\n .byte 23\n""")
        self.run_tool("ar", "rcs", "libx.a", "member.o")
        for inside in ("KEEP(*libx.a:(.data.x))", "KEEP(*libx.a:*(.data.x .data.z))", "KEEP(*liby.a:*(.data*))",
                       "KEEP(libx.a:member.o(.data.*))", "KEEP(*(EXCLUDE_FILE(*libx.a:*) .data.x))",
                       "KEEP(EXCLUDE_FILE(*liby.a:*) *(.data.x))", "KEEP(:other.o(.data.x))"):
            self.script(inside=inside)
            self.collects("plain.o", "other.o")
            self.collects("plain.o", "other.o", "-u", "of_member", "libx.a")

    def test_members(self) -> None:
        """KEEP of an archive's members, by the archive's name, by a member's, and by a pattern of both."""
        self.compile("start.s", """ .globl _start\n .section .text._start,"ax"\n _start: call f\n call g\n""")
        self.compile("a.s", """ .globl f\n .section .text.f,"ax"\n f: ret\n .section .s,"aw"\n .quad 0x11\n""")
        self.compile("b.s", """ .globl g\n .section .text.g,"ax"\n g: ret\n .section .s,"aw"\n .quad 0x22\n
            .section .t,"aw"\n .quad 0x33\n""")
        self.run_tool("ar", "rc", "libx.a", "a.o", "b.o")
        for file in ("*libx.a:", "*libx.a:a.o", "*libx.a:*", "*x.a:b*", "*libx.a", "*b.o"):
            for body in ("KEEP({0}(.s))", "*(.s) KEEP({0}(.s .t))", "KEEP({0}(SORT(.s))) *(.s)",
                         "KEEP(*(EXCLUDE_FILE({0}) .s))", "*(.s) KEEP({0})"):
                self.write("t.ld", "ENTRY(_start) SECTIONS { . = 0x10000; .text : { *(.text*) } .s : { "
                           + body.format(file) + " } .rest : { *(.s) *(.t) *(.data) *(.bss) } }")
                self.collects("start.o", "libx.a")

    def test_flags(self) -> None:
        """KEEP of INPUT_SECTION_FLAGS keeps what its patterns take, and not what EXCLUDE_FILE leaves out."""
        for name, number in (("p", 1), ("q", 2)):
            self.compile(f"{name}.s", f""" .section .d.a,"aw"\n .byte {number}\n .section .d.b,"aw"\n .byte 3\n
                .section .d.c,"a"\n .byte {number + 3}\n""")
        self.compile("start.s", """ .globl _start\n .section .text._start,"ax"\n _start: ret\n""")
        for kept in ("*(EXCLUDE_FILE(q.o) .d.a)", "*(.d.b EXCLUDE_FILE(p.o) .d.a)", "EXCLUDE_FILE(p.o) *(.d.*)",
                     "*(SORT_BY_NAME(.d.*))"):
            self.write("t.ld", "ENTRY(_start) SECTIONS { . = 0x10000; .text : { *(.text*) } .d : { "
                       f"KEEP(INPUT_SECTION_FLAGS(SHF_WRITE) {kept}) }} .rest : {{ *(.d.*) *(.data) *(.bss) }} }}")
            self.collects("start.o", "p.o", "q.o")
            self.collects("start.o", "q.o", "p.o")

    def test_binary(self) -> None:
        """The bytes of a file of -b binary stay."""
        self.write("some.bin", b"abcdefgh")
        self.script()
        self.links("--gc-sections", "-T", "t.ld", "-o", "own", "plain.o", "-b", "binary", "some.bin")
        self.run_tool("objcopy", "-O", "binary", "own", "own.bin")
        self.assertIn(b"abcdefgh", (self.folder / "own.bin").read_bytes())

    def test_discarded(self) -> None:
        """What is discarded keeps what it refers to, where GNU ld keeps it at first."""
        self.write("t.ld", """ENTRY(_start) SECTIONS { . = 0x10000; .text : { *(.text*) } .d : { *(.data*) *(.bss) }
                              /DISCARD/ : { *(cmds) *(*) } .again : { KEEP(*(cmds)) } }""")
        self.collects("plain.o", "other.o")

    def test_empty(self) -> None:
        """An empty section that stays moves what comes after it to its alignment."""
        self.compile("empty.s", """ .section .text._start,"ax"\n .globl _start\n _start: .quad nothing, after\n
            .section .data.a,"aw"\n .byte 1\n .section .data.b,"aw"\n .balign 16\n nothing:\n
            .section .data.c,"aw"\n after: .byte 2\n""")
        self.write("t.ld", "ENTRY(_start) SECTIONS { . = 0x10000; .text : { *(.text*) } "
                   ".data : { BYTE(1) *(.data.a) *(.data.b) *(.data.c) } /DISCARD/ : { *(*) } }")
        self.collects("empty.o")

    def test_unwinding(self) -> None:
        """The tables of exceptions of code that stays."""
        code = """ .section .text.{0},"ax"\n .globl {0}\n{0}: .cfi_startproc\n .cfi_personality 3, personality\n
            .cfi_lsda 3, table_{0}\n nop\n .cfi_endproc\n .section .gcc_except_table.{0},"a"\n
            table_{0}: .quad of_{0}\n .section .data.{0},"aw"\n of_{0}: .byte {1}\n"""
        self.compile("tables.s", code.format("_start", 1) + code.format("other", 2) + """
            .section .text.personality,"ax"\n .globl personality\n personality: .byte 3\n""")
        self.write("t.ld", """ENTRY(_start) SECTIONS { . = 0x10000; .text : { *(.text*) }
            .tables : { *(.gcc_except_table*) *(.data*) } /DISCARD/ : { *(*) } }""")
        self.collects("tables.o")

    def test_unwinding_that_is_not_understood(self) -> None:
        """Entries with an instruction that GNU ld does not know: what they name does not stay by them."""
        self.compile("strange.s", """ .section .gcc_except_table,"a"\n table: .byte 1\n .text\n .globl _start\n
            _start: .cfi_startproc\n .cfi_personality 0x1b, personality\n .cfi_lsda 0x1b, table\n .cfi_escape 0x3f\n
            nop\n .cfi_endproc\n personality: nop\n""")
        self.write("t.ld", "ENTRY(_start) SECTIONS { . = 0x10000; .text : { *(.text*) } .eh_frame : { *(.eh_frame) } }")
        self.collects("strange.o")

    def test_unwinding_of_many(self) -> None:
        """Of more than a page of functions that go, `.eh_frame` says nothing."""
        many = "".join(f"int left_out_{number}(int x) {{ return x * {number + 7} + 3; }}\n" for number in range(300))
        self.compile("many.c", "int data = 3; const int first = 1; int zeros[9]; void _start(void) "
                     "{ data += first + zeros[data]; }\n" + many, "-fasynchronous-unwind-tables")
        self.compile("few.c", "int unused(int x) { return x + 1; }", "-fasynchronous-unwind-tables")
        done = self.links("--gc-sections", "--no-fallback", "many.o", "few.o", "-o", "own")
        self.assertNotIn("changed", done.stderr)
        self.run_tool("ld.bfd", "--gc-sections", "many.o", "few.o", "-o", "gnu")
        names = [self.run_tool("nm", one) for one in ("own", "gnu")]
        self.assertEqual(*names)
        self.assertNotIn(" left_out_299", names[0])

    def test_files_without_contents(self) -> None:
        """An object of which the image has nothing but zeros: GNU ld's table does not have its source file."""
        flag = "-fno-asynchronous-unwind-tables"
        self.compile("zeros.c", "char zeros[40]; static char own[8]; char *place(void) { return own; }", flag)
        self.compile("uses.c", "extern char zeros[]; void _start(void) { zeros[1] = 2; }", flag)
        self.links("--gc-sections", "--no-fallback", "uses.o", "zeros.o", "-o", "own")
        self.run_tool("ld.bfd", "--gc-sections", "uses.o", "zeros.o", "-o", "gnu")
        names = [self.run_tool("nm", "-a", one) for one in ("own", "gnu")]
        self.assertEqual(*names)
        self.assertIn("uses.c", names[0])
        self.assertNotIn("zeros.c", names[0])

    def test_table_of_what_fits_once_merged(self) -> None:
        """The global offset table is for what stays, also where strings fit only once they are merged."""
        for name, function in ("one", "_start"), ("two", "unused"):
            self.compile(f"{name}.s", f"""
 .globl {function}
 .section .text.{function},"ax"
{function}: push $.Ltext
 .if ONE
 nop
 .else
 push other@GOTPCREL(%rip)
 .endif
 .section .text.other{function},"ax"
 .globl other
 .weak other
other: nop
 .section .rodata.str1.1,"aMS",@progbits,1
.Ltext: .string "the same text"
""", f"-Wa,--defsym,ONE={int(name == 'one')}")
        self.write("t.ld", "ENTRY(_start) SECTIONS { . = 0x10000; .rodata : { KEEP(*(.rodata.str1.1)) . = 16; } "
                   ".text : { *(.text*) } .got : { *(.got .got.plt) } }")
        self.collects("one.o", "two.o")

    def test_report(self) -> None:
        """What GNU ld keeps is in the image, also where no statement takes it; what stays beside it is said."""
        self.write("t.ld", "ENTRY(_start) SECTIONS { . = 0x10000; .text : { *(.text*) } }")
        self.collects("plain.o")
        quiet = self.links("--gc-sections", "-T", "t.ld", "plain.o", "-o", "own", "--orphan-handling=discard")
        self.assertNotIn("--gc-sections: ", quiet.stderr)
        self.compile("cfi.c", "void _start(void) { } void other(void) { }", "-fasynchronous-unwind-tables")
        self.write("t.ld", "ENTRY(_start) SECTIONS { . = 0x10000; .text : { *(.text*) } .eh_frame : "
                   "{ KEEP(*(.eh_frame)) } /DISCARD/ : { *(.note*) } }")
        done = self.links("--gc-sections", "-T", "t.ld", "cfi.o", "-o", "own")
        self.assertNotIn("changed", done.stderr)
        self.write("t.ld", "ENTRY(_start) SECTIONS { . = 0x10000; .text : { *(.text*) } .frames : "
                   "{ KEEP(*(.eh_frame)) } /DISCARD/ : { *(.note*) } }")
        done = self.links("--gc-sections", "-T", "t.ld", "cfi.o", "-o", "own")
        self.assertIn("changed: --gc-sections: .eh_frame of cfi.o: under KEEP: all functions that it", done.stderr)
