"""Options by which GNU ld places sections, common blocks and names: beside its images."""
from __future__ import annotations

import re

from tests.images import Image, read_image
from tests.programs import Done, OutsideTest, needs

SCRIPT = """ENTRY(_start)
SECTIONS { . = 0x400000; .text : { *(.text .text.*) } .rodata : { *(SORT_BY_ALIGNMENT(.rodata.*)) *(.rodata) }
           .data : { *(.data .data.*) } .bss : { *(.bss .bss.*) *(COMMON) }
           /DISCARD/ : { *(.comment) *(.note*) *(.eh_frame) } }
"""
CALLS = """int foo(int); int __real_foo(int); int bar(int);
int __wrap_foo(int x) { return __real_foo(x) + 1; }
int __wrap_bar(int x) { return x - 1; }
int both(int x) { return foo(x) + __real_foo(x) + bar(x); }
int _start(void) { return foo(3); }
"""
HAS = """int foo(int x) { return 2 * x; }
int bar(int x) { return x; }
int own(void) { int (*volatile p)(int) = foo; return p(5); }
"""
SECTIONS = """.section .data.z,"aw"
.balign 4
.byte 1
.section .data.b,"aw"
.balign 32
.long 2
.section .rodata.b,"a"
.byte 3
.section .rodata.a,"a"
.byte 4
.section .text.z,"ax"
nop
.section .text.a,"ax"
.balign 16
ret
.comm small, 4, 4
.comm large, 64, 64
.comm word, 8, 8
"""
IMAGE = """ENTRY(entry) SECTIONS { . = 0x10000; .text : { *(.text) } .data : { *(.data) } /DISCARD/ : { *(.note*) } }"""
SYMBOLS = """.globl entry, counter, mark
.weak soft
mark = 0x77
.type entry, @function
entry: soft: ret
.size entry, 1
local: nop
.data
counter: .long 5
"""


@needs("ld.bfd")
class PlacingTest(OutsideTest):
    """Links with such options."""

    def setUp(self) -> None:
        """Objects, and a script."""
        super().setUp()
        self.compile("calls.c", CALLS)
        self.compile("has.c", HAS)
        self.compile("sections.s", SECTIONS)
        self.compile("start.c", "int bar(int); int _start(void) { return bar(1); }\n")
        self.write("t.ld", SCRIPT)

    def image(self, name: str) -> Image:
        """An image in the folder."""
        return read_image(self.read(name))

    def same(self, words: tuple[str, ...], name: str) -> None:
        """An image has the sections and symbols of GNU ld's; gaps in code are 0."""
        self.must("ld.bfd", *words, "-o", "gnu")
        gnu, own = self.image("gnu"), self.image(name)
        places = [sorted((one.name, one.address, one.size) for one in image.sections) for image in (own, gnu)]
        self.assertEqual(*places, words)
        self.assertEqual({name: own.symbols.get(name) for name in gnu.symbols}, gnu.symbols, words)
        for section in gnu.sections:
            if section.data is not None and not section.flags & 4:
                self.assertIn(section.data, [one.data for one in own.sections if one.address == section.address])

    def both(self, *words: str) -> Done:
        """Links by both; gives what `ld.ldi` said."""
        done = self.links(*words, "-o", "own", env={"LDI_FALLBACK": "none"})
        self.same(words, "own")
        self.assertNotIn("changed", done.stderr)
        return done

    def code(self, name: str) -> list[str]:
        """The instructions of an image that are no gaps."""
        lines = self.must("objdump", "-d", "--no-show-raw-insn", name).splitlines()
        found = [line.split("\t", 1) for line in lines if "\t" in line]
        return [f"{at.strip()} {code.strip()}" for at, code in found
                if not re.search(r"nop|add +%al,\(%rax\)|\.\.\.", code)]

    def test_wrap(self) -> None:
        """References of other objects, and of an object that has what they are to; archives; two names."""
        for words in (("--wrap=foo",), ("--wrap", "foo", "--wrap=bar"), ("-wrap=foo", "--gc-sections")):
            self.both(*words, "-T", "t.ld", "calls.o", "has.o")
            self.assertEqual(self.code("own"), self.code("gnu"), words)
        self.must("ar", "rcs", "libhas.a", "has.o")
        self.compile("wrapper.c", "int __real_foo(int); int __wrap_foo(int x) { return __real_foo(x) + 1; }\n")
        self.must("ar", "rcs", "libwrapper.a", "wrapper.o")
        self.compile("plain.c", "int foo(int); int _start(void) { return foo(3); }\n")
        self.both("--wrap=foo", "-T", "t.ld", "plain.o", "libwrapper.a", "libhas.a")
        self.assertEqual(self.code("own"), self.code("gnu"))
        self.compile("uses.c", "int foo(int); int _start(void) { return foo(3); }\n")
        done = self.ld("--wrap=foo", "-T", "t.ld", "uses.o", "has.o", "-o", "none")
        self.assertEqual(done.returncode, 1)
        self.assertIn("undefined reference to `__wrap_foo'", done.stderr)

    def test_wrapped_in_the_script(self) -> None:
        """A script that speaks of such a name is GNU ld's."""
        self.write("t.ld", SCRIPT + "address = foo;\n")
        done = self.links("--wrap=foo", "-T", "t.ld", "calls.o", "has.o", "-o", "own", "--wrap=bar")
        self.assertIn("--wrap: the script has the name foo: linked by ld.bfd", done.stderr)

    def test_wrap_with_a_server(self) -> None:
        """Edits of the object that is referred to, and of one that refers."""
        words = ("--wrap=foo", "--wrap=bar", "-T", "t.ld", "calls.o", "has.o")
        for name, text in (("has.c", HAS), ("has.c", HAS.replace("2 * x", "x * x * 3")), ("calls.c", CALLS),
                           ("calls.c", CALLS.replace("foo(3)", "foo(3) + bar(4)")), ("has.c", HAS + "int more = 5;\n"),
                           ("calls.c", CALLS.replace("foo(3)", "foo(4)"))):
            self.compile(name, text)
            self.serves(*words, "-o", "served", env={"LDI_FALLBACK": "none"})
            self.same(words, "served")
            self.assertEqual(self.code("served"), self.code("gnu"), text)

    def test_just_symbols(self) -> None:
        """Symbols of an image, of an object and of a text; a folder is none of these."""
        self.compile("image.s", SYMBOLS)
        self.write("image.ld", IMAGE)
        self.must("ld.bfd", "-T", "image.ld", "image.o", "-o", "image")
        self.compile("uses.s", ".globl _start\n_start: call entry\n mov counter, %eax\n mov $mark, %ecx\n call soft\n")
        for words in (("-R", "image"), ("--just-symbols=image",), ("-R", "image.o"), ("-R", ".", "-R", "image")):
            self.both(*words, "-T", "t.ld", "uses.o")
            self.assertEqual(self.code("own"), self.code("gnu"), words)
        self.both("-T", "t.ld", "uses.o", "-R", "image", "sections.o")
        done = self.ld("-T", "t.ld", "uses.o", "-R", "t.ld", "-o", "none", "--no-fallback")
        self.assertEqual(done.returncode, 2)
        self.assertIn("-R t.ld", done.stderr)

    def test_names_of_the_script_and_of_objects(self) -> None:
        """The script's value counts, in the object of the name too: of -R, strong, weak, common, with --gc-sections and
        by the default script."""
        self.compile("image.s", SYMBOLS + ".globl __bss_start, _edata, _end\n__bss_start: _edata: _end: .long 1\n")
        self.write("image.ld", IMAGE)
        self.must("ld.bfd", "-T", "image.ld", "image.o", "-o", "image")
        self.compile("uses.s",
                     ".globl _start, own\n_start: call entry\n mov $counter, %eax\n mov $_end, %ecx\n mov own, %edx\n"
                               ".weak _end\n.data\nown: .quad own, counter, block\n.comm block, 8, 8\n.quad soft\n")
        self.both("-R", "image", "uses.o")
        self.write("names.ld", SCRIPT.replace(".bss :", "counter = .; own = . + 8; .bss :").replace(
            ".rodata", "soft = .; block = 0x1234; early = own; PROVIDE(mark = 3); .rodata", 1))
        self.compile("before.s", SYMBOLS)
        for words in (("-R", "image"), ("before.o",)):
            for more in ((), ("--gc-sections",), ("--defsym=own=0x10",)):
                self.both(*words, *more, "-T", "names.ld", "uses.o")
                self.assertEqual(self.code("own"), self.code("gnu"), words)

    def test_just_symbols_with_a_server(self) -> None:
        """An image whose symbols move."""
        self.write("image.ld", IMAGE)
        self.compile("uses.s", ".globl _start\n_start: call entry\n mov counter, %eax\n")
        words = ("-R", "image", "-T", "t.ld", "uses.o")
        for text in (SYMBOLS, ".skip 5\n" + SYMBOLS, SYMBOLS + ".long 9\n", SYMBOLS):
            self.compile("image.s", text)
            self.must("ld.bfd", "-T", "image.ld", "image.o", "-o", "image")
            self.serves(*words, "-o", "served", env={"LDI_FALLBACK": "none"})
            self.same(words, "served")
            self.assertEqual(self.code("served"), self.code("gnu"))

    def test_sorts(self) -> None:
        """--sort-section, beside sorts of the script, and --sort-common."""
        self.compile("more.s", SECTIONS.replace("small", "tiny").replace("large, 64, 64", "wide, 16, 16"))
        for words in (("--sort-section=name",), ("--sort-section", "alignment"), ("--sort-common",),
                      ("--sort-common=ascending",), ("--sort-common=descending", "--sort-section=name")):
            for objects in (("start.o", "has.o", "sections.o", "more.o"), ("more.o", "start.o", "has.o", "sections.o")):
                self.both(*words, "-T", "t.ld", *objects)
        for words in (("--sort-section=size",), ("--sort-common=up",)):
            self.assertIn(words[0].split("=")[1], self.ld(*words, "-T", "t.ld", "more.o", "--no-fallback").stderr)

    def test_unique(self) -> None:
        """--unique: orphans apart, and sections of a name apart though statements match them."""
        self.compile("orphans.s",
                     '.section .own,"a"\n.byte 1\n.section .data.z,"aw"\n.byte 2\n.section .own2,"aw"\n.byte 3')
        self.compile("others.s", '.section .own,"a"\n.byte 4\n.section .own2,"aw"\n.byte 5\n')
        for words in (("--unique",), ("--unique=.own",), ("--unique=.data.*",), ("--unique=.own*", "--unique=.text.z")):
            self.both(*words, "-T", "t.ld", "sections.o", "orphans.o", "others.o", "start.o", "has.o")

    def test_addresses(self) -> None:
        """--section-start, -Ttext and its like, of sections of the script and of orphans."""
        self.compile("orphans.s", '.section .own,"a"\n.byte 1\n')
        for words in (("-Ttext=0x500000",), ("-Tdata", "600000"), ("-Tbss=0x700000",),
                      ("--section-start=.own=0x800000",), ("-Ttext=0x500000", "--section-start=.rodata=0x900000")):
            self.both(*words, "-T", "t.ld", "sections.o", "orphans.o", "start.o", "has.o")
        done = self.links("--section-start=.nothing=0x5000", "-T", "t.ld", "sections.o", "-o", "own")
        self.assertIn(".nothing: the script has no such section", done.stderr)

    def test_default_scripts(self) -> None:
        """Each of GNU ld's scripts that an option chooses."""
        for words in ((), ("-n",), ("-N",), ("-z", "noseparate-code"), ("-z", "norelro"), ("-z", "now"),
                      ("-n", "-z", "noseparate-code")):
            self.links(*words, "start.o", "has.o", "sections.o", "-o", "own", env={"LDI_FALLBACK": "none"})
            self.same((*words, "start.o", "has.o", "sections.o"), "own")
