"""Objects as compilers give them: groups of sections, references by a global offset table, sections in the order of
others; each link beside GNU ld's image of the same words."""
from __future__ import annotations

from tests.images import Image, read_image
from tests.programs import OutsideTest, needs

SCRIPT = """ENTRY(_start)
SECTIONS { . = 0x400000; .text : { *(.text .text.*) } =0x90909090 .rodata : { *(.rodata*) } . = ALIGN(4096);
           .data : { *(.data .data.*) } .got : { *(.got) } .got.plt : { *(.got.plt) }
           .bss : { *(.bss .bss.*) *(COMMON) }
           __patchable_function_entries : { *(__patchable_function_entries) }
           /DISCARD/ : { *(.comment) *(.note*) *(.eh_frame) *(.gcc_except_table*) } }
"""
NONE = {"LDI_FALLBACK": "none"}
"""No link of these tests is another linker's, but where that is said."""
CXX = ("-O0", "-ffreestanding", "-fno-pic", "-fno-stack-protector", "-fno-rtti", "-fno-threadsafe-statics",
       "-fcf-protection=none", "-fno-exceptions")
PIC = ("-fPIC", "-fno-plt")


class ObjectTest(OutsideTest):
    """Links by both linkers, which say nothing of a difference."""

    def setUp(self) -> None:
        """Writes the script."""
        super().setUp()
        self.write("t.ld", SCRIPT)

    def same(self, *words: str, script: str = "t.ld") -> tuple[Image, Image]:
        """The images of both, whose sections, symbols and entries are the same."""
        self.links("-T", script, *words, "-o", "own", env=NONE)
        self.must("ld.bfd", "-T", script, *words, "-o", "gnu")
        return self.alike()

    def alike(self) -> tuple[Image, Image]:
        """The images that were made last, which are the same."""
        own, gnu = read_image(self.read("own")), read_image(self.read("gnu"))
        own.symbols.pop("_GLOBAL_OFFSET_TABLE_", None)  # a local symbol in GNU ld's image
        self.assertEqual(own.places(), gnu.places())
        self.assertEqual(own.symbols, gnu.symbols)
        self.assertEqual(own.entry, gnu.entry)
        return own, gnu

    def cxx(self, name: str, text: str, *flags: str) -> str:
        """Compiles a source of C++."""
        self.write(name, text)
        output = name.rsplit(".", 1)[0] + ".o"
        self.must("g++", *CXX, *flags, "-c", name, "-o", output)
        return output


def assembly(*parts: str) -> str:
    """A source of these lines, for a stack that is not executable."""
    return "\n".join((*parts, '.section .note.GNU-stack,"",@progbits')) + "\n"


def group(name: str, signature: str, flags: str = "ax") -> str:
    """The line that begins a section of a COMDAT group."""
    return f'.section {name},"{flags}G",@progbits,{signature},comdat'


@needs("ld.bfd", "g++")
class GroupTest(ObjectTest):
    """Groups of sections."""

    HEAD = """template<class T> struct S { static T n; T f(T a) { static T count; count += a; return n + count; } };
template<class T> T S<T>::n = 3;
inline int g(int a) { static int k = 4; return k++ + a; }
struct Shape { virtual int area() { return 1; } virtual ~Shape() {} };
void operator delete(void *, unsigned long);
"""
    FIRST = HEAD + """int h(int);
void operator delete(void *, unsigned long) {}
extern "C" void __cxa_pure_virtual() {}
int area(Shape *s) { return s->area(); }
extern "C" int _start() { S<int> s; S<long> t; return s.f(1) + t.f(2) + g(3) + h(2); }
"""
    SECOND = HEAD + """int area(Shape *);
struct Square : Shape { int area() override { return 4; } };
int h(int a) { S<int> s; S<char> t; Square q; return s.f(a) + t.f(3) + g(a) + area(&q); }
"""

    def test_templates(self) -> None:
        """Templates, inline functions, their static variables and virtual tables, with the flags as they come."""
        self.same(self.cxx("a.cc", self.FIRST), self.cxx("b.cc", self.SECOND))

    def test_collected(self) -> None:
        """The same with --gc-sections."""
        self.same("--gc-sections", self.cxx("a.cc", self.FIRST), self.cxx("b.cc", self.SECOND))

    def test_first_counts(self) -> None:
        """The first object of a signature has it, whatever is in the others; the order of the words says which."""
        one = self.compile("one.s", assembly(".globl _start", "_start: call f", group(".text.f", "f"), ".weak f",
                                             "f: nop", group(".data.f", "f", "aw"), ".globl v", "v: .quad 1"))
        two = self.compile("two.s", assembly(group(".text.f", "f"), ".weak f", "f: ret", "nop", ".globl more",
                                             "more: nop"))
        own, _ = self.same(one, two)
        self.assertNotIn("more", own.symbols)
        own, _ = self.same(two, one)
        self.assertNotIn("v", own.symbols)

    def test_no_comdat(self) -> None:
        """A group that is none of COMDAT is linked each time."""
        text = assembly('.section .text.f,"axG",@progbits,f', "f: nop", ".globl {0}", "{0}: ret")
        self.same(self.compile("a.s", text.replace("{0}", "_start")), self.compile("b.s", text.replace("{0}", "b")))

    def test_linkonce(self) -> None:
        """Sections `.gnu.linkonce.*` of one name."""
        self.write("t.ld", SCRIPT.replace(".text.*)", ".text.* .gnu.linkonce.t.*)"))
        text = assembly('.section .gnu.linkonce.t.f,"ax",@progbits', ".weak f", "f: .byte {0}", ".text", ".globl s{0}",
                        "s{0}: call f")
        self.same(*(self.compile(f"{n}.s", text.replace("{0}", str(n))) for n in (1, 2, 3)), "-e", "s1")

    def test_archive(self) -> None:
        """A name that only a dropped section defines takes no member of an archive: it is undefined."""
        one = self.compile("one.s", assembly(".globl _start", "_start: call f", group(".text.f", "f"), ".globl f",
                                             "f: nop"))
        two = self.compile("two.s", assembly(".text", ".globl g", "g: call more", group(".text.f", "f"), ".globl f",
                                             "f: ret", ".globl more", "more: nop"))
        self.compile("more.s", assembly(".globl more", "more: nop", "nop"))
        self.must("ar", "rc", "more.a", "more.o")
        words = ("-T", "t.ld", one, two, "more.a")
        done = self.ld(*words, "-o", "own", env=NONE)
        self.assertEqual(done.returncode, 1, done.stderr)
        self.assertIn("more", done.stderr)
        self.assertNotEqual(self.run_program("ld.bfd", *words, "-o", "gnu").returncode, 0)

    def test_dropped_local(self) -> None:
        """What refers to a dropped local symbol: a fault, with GNU ld's status; in a table of exceptions nothing."""
        text = (".globl s{0}", "s{0}: nop", group(".text.f", "f"), ".weak f", "f: nop", "local: ret")
        objects = [self.compile(f"{n}.s", assembly(*(line.replace("{0}", str(n)) for line in text), ".data",
                                                   ".quad local")) for n in (1, 2)]
        done = self.ld("-T", "t.ld", *objects, "-e", "s1", "-o", "own", env=NONE)
        self.assertEqual(done.returncode, 1, done.stderr)
        self.assertIn("2.o", done.stderr)
        self.assertNotEqual(self.run_program("ld.bfd", "-T", "t.ld", *objects, "-o", "gnu").returncode, 0)
        self.write("t.ld", SCRIPT.replace("*(.gcc_except_table*)", "").replace("*(.data", "*(.gcc_except_table .data"))
        tables = [self.compile(f"{n}.s", assembly(*(line.replace("{0}", str(n)) for line in text),
                                                  '.section .gcc_except_table,"a"', ".long 1", ".quad local",
                                                  ".long local-.")) for n in (1, 2)]
        self.same(*tables, "-e", "s1")

    def test_with_a_server(self) -> None:
        """Edits: of what is kept, of what is dropped, and of what signatures an object has."""
        words = ("-T", "t.ld", "a.o", "b.o", "-e", "s")
        first = (".globl s", "s: call f", group(".text.f", "f"), ".weak f")
        second = (".globl t", "t: call f", group(".text.f", "f"), ".weak f")
        self.compile("a.s", assembly(*first, "f: nop"))
        self.compile("b.s", assembly(*second, "f: ret"))
        self.serves(*words, "-o", "own", env=NONE)
        for name, lines in (("a.s", (*first, "f: nop", "ret")), ("b.s", (*second, "f: ret", "nop", "nop")),
                            ("b.s", (*second, "f: ret", group(".text.g", "g"), "g: nop")),
                            ("a.s", (".globl s", "s: call f")), ("a.s", (*first, "f: .byte 4")),
                            ("b.s", (".globl t", "t: call f", "call f", group(".text.f", "f"), ".weak f", "f: ret"))):
            with self.subTest(lines=lines):
                self.compile(name, assembly(*lines))
                self.serves(*words, "-o", "own", env=NONE)
                self.must("ld.bfd", *words, "-o", "gnu")
                self.alike()


@needs("ld.bfd")
class TableTest(ObjectTest):
    """References by a global offset table."""

    OPERATIONS = ("adcl", "addl", "andl", "cmpl", "orl", "sbbl", "subl", "xorl", "movl")
    OTHER = "int other = 3; int f(int a) { return a + 1; } int (*pointer)(int) = f;\n"

    def operations(self) -> list[str]:
        """Instructions of each kind, with and without a REX prefix."""
        lines = []
        for operation in self.OPERATIONS:
            wide = operation[:-1] + "q"
            lines += [f"{operation} {name}@GOTPCREL(%rip), {register}" for name, register in
                      (("other", "%ecx"), ("f", "%r9d"), ("number", "%ebp"), ("script", "%eax"))]
            lines += [f"{wide} {name}@GOTPCREL(%rip), {register}" for name, register in
                      (("other", "%rcx"), ("near", "%r13"), ("number", "%rbp"), ("script", "%r8"), ("weak", "%rax"))]
        lines += [f"{branch} *{name}@GOTPCREL(%rip)" for branch in ("call", "jmp") for name in ("f", "near", "weak")]
        return [*lines, "testq %r12, other@GOTPCREL(%rip)", "testl %ecx, weak@GOTPCREL(%rip)"]

    def test_operations(self) -> None:
        """Each operation of the psABI (B.2): of names of other objects, of this one and of the script, of numbers, and
        of a weak name that nothing defines."""
        self.write("t.ld", f"script = 0x1234;\n{SCRIPT}")
        own = self.compile("a.s", assembly(".globl _start", "_start:", *self.operations(), ".data", "near: .quad 1",
                                           ".weak weak", "number = 0x4321"))
        self.same(own, self.compile("other.c", self.OTHER))

    def test_compiler(self) -> None:
        """What gcc writes with -fPIC, with and without calls by a table, at low and at high addresses."""
        text = """extern int other; extern int f(int); extern int (*pointer)(int); static int own;
int (*address(void))(int) { return f; }
int *variable(void) { return &other; }
int compared(int *p) { return p == &other; }
int last(int a) { return f(a); }
int _start(void) { return other + f(3) + compared(&own) + pointer(3) + (variable() == 0) + last(2); }
"""
        other = self.compile("other.c", self.OTHER, *PIC)
        for flags in (("-fPIC",), PIC, (*PIC, "-O0"), ("-fPIC", "-Wa,-mrelax-relocations=no", "-O1")):
            with self.subTest(flags=flags):
                own = self.compile("a.c", text, *flags)
                self.same(own, other)
                self.write("high.ld", SCRIPT.replace("0x400000", "0xffffffff81000000"))
                self.same(own, other, script="high.ld")

    TABLE = """extern char weak __attribute__((weak)); extern void function(void) __attribute__((weak));
extern int other, f(int), (*pointer)(int); static int own = 4;
int is_here(void) { return &weak != 0; }
void call(void) { if (function) function(); }
int compared(void *p) { return (p == &other) + (p == f) + (p == &pointer); }
int local(void *p) { char r; asm("cmpq own@GOTPCREL(%%rip), %1; sete %0" : "=r"(r) : "r"(p)); return r + own++; }
int start(void) { long r; asm("leaq _GLOBAL_OFFSET_TABLE_(%%rip), %0" : "=r"(r)); return r == 0; }
int _start(void) { call(); return is_here() + compared(0) + start(); }
"""
    OLD = ("-fPIC", "-Wa,-mrelax-relocations=no", "-O1")

    def test_entries(self) -> None:
        """Entries of a table: of names in GNU ld's order, of a local one, of weak ones that nothing defines; and
        `_GLOBAL_OFFSET_TABLE_`."""
        table = self.compile("a.c", self.TABLE, *self.OLD)
        other = self.compile("other.c", self.OTHER)
        start = self.compile("b.s", assembly("cmpq near@GOTPCREL(%rip), %rax", ".data", "near: .quad 4"),
                             "-Wa,-mrelax-relocations=no")
        for words in ((table, other), (other, table), (start, table, other)):
            with self.subTest(words=words):
                own, _ = self.same(*words)
                self.assertEqual(own.section(".got.plt").size, 24)

    def test_places(self) -> None:
        """The table among data, by one pattern of several; what is collected or left out has no entry."""
        words = (self.compile("first.s", assembly(".data", ".quad 3")), self.compile("a.c", self.TABLE, *self.OLD),
                 self.compile("other.c", self.OTHER))
        got = ".data : { *(.data .data.*) } .got : { *(.got) } .got.plt : { *(.got.plt) }"
        for data in (".data : { *(.data .got .got.plt) }", ".data : { *(.got*) *(.data) }",
                     ".data : { *(.data) *(.got.plt) *(.got) }"):
            with self.subTest(data=data):
                self.write("t.ld", SCRIPT.replace(got, data))
                self.same(*words)
        self.write("t.ld", SCRIPT)
        parted = self.compile("a.c", self.TABLE, *self.OLD, "-ffunction-sections", "-fdata-sections")
        self.same("--gc-sections", words[0], parted, words[2])
        self.same("--gc-sections", words[0], parted, words[2], "-e", "compared")
        left_out = "/DISCARD/ : { *(.text.compared .text.start .text._start) }"
        self.write("t.ld", SCRIPT.replace(".text : {", f"{left_out} .text : {{"))
        self.same(words[0], parted, words[2], "-e", "is_here")

    def test_with_a_server(self) -> None:
        """Edits by which entries come and go, and others move."""
        text = "extern int one, two; int f(void *p) {{ return {0}; }} int one, two;\n"
        words = ("-T", "t.ld", "b.o", "a.o", "-e", "f")
        self.compile("b.c", "int b = 4;\n")
        for index, body in enumerate(("p == &one", "(p == &one) + (p == &two)", "p == 0", "p == &two", "p == &one",
                                      "p == &one ? 4 : 5")):
            with self.subTest(body=body):
                self.compile("a.c", text.format(body), *self.OLD)
                if index == 4:
                    self.compile("b.c", "int b = 5;\n")
                self.serves(*words, "-o", "own", env=NONE)
                self.must("ld.bfd", *words, "-o", "gnu")
                self.alike()

    def test_undefined(self) -> None:
        """A name that nothing defines is a fault where it is referred to."""
        self.compile("a.s", assembly(".globl _start", "_start: cmpq nowhere@GOTPCREL(%rip), %rax"),
                     "-Wa,-mrelax-relocations=no")
        done = self.ld("-T", "t.ld", "a.o", "-o", "own", env=NONE)
        self.assertEqual(done.returncode, 1, done.stderr)
        self.assertIn("a.o: (.text+0x3): undefined reference to `nowhere'", done.stderr)

    def test_numbers(self) -> None:
        """A number that does not fit is read by a table: the link is GNU ld's image, or is handed over to it."""
        for number in ("0x7fffffff", "0x80000000", "0xffffffff", "0x100000000", "0xffffffff80000000"):
            for home in ("own", "other"):
                with self.subTest(number=number, home=home):
                    value = (".globl number", f"number = {number}")
                    self.compile("a.s", assembly(".globl _start", "_start: movq number@GOTPCREL(%rip), %rax",
                                                 *(value if home == "own" else ())))
                    self.compile("b.s", assembly(*(value if home == "other" else ())))
                    self.links("-T", "t.ld", "a.o", "b.o", "-o", "own")
                    self.must("ld.bfd", "-T", "t.ld", "a.o", "b.o", "-o", "gnu")
                    self.assertEqual(read_image(self.read("own")).places(), read_image(self.read("gnu")).places())

    def test_options(self) -> None:
        """--no-relax and -z call-nop: GNU ld's image."""
        self.compile("a.s", assembly(".globl _start", "_start: call *f@GOTPCREL(%rip)", "f: nop"))
        for words in (("--no-relax",), ("-z", "call-nop=suffix-nop"), ("-z", "call-nop=prefix-addr"), ("--relax",),
                      ("--no-relax", "--relax")):
            with self.subTest(words=words):
                self.links("-T", "t.ld", *words, "a.o", "-o", "own")
                self.must("ld.bfd", "-T", "t.ld", *words, "a.o", "-o", "gnu")
                self.assertEqual(read_image(self.read("own")).places(), read_image(self.read("gnu")).places())


@needs("ld.bfd")
class NoteTest(ObjectTest):
    """Notes of properties."""

    HEAD = ('.section .note.gnu.property,"a",@note', ".balign 8", ".long 4, 2f-1f, 5", '.asciz "GNU"', "1:")
    FEATURES, NEEDED, USED, MARKED, STACK = 0xC0000002, 0xC0008002, 0xC0010002, 0xB0008000, 1

    def note(self, name: str, *properties: tuple[int, int]) -> str:
        """An object with a note of properties, and one without where there are none."""
        lines = [f".globl {name}", f"{name}: nop"]
        if properties:
            lines += self.HEAD
            lines += [f".long {kind}, 8\n.quad {value}" if kind == self.STACK else f".long {kind}, 4, {value}, 0"
                      for kind, value in properties]
            lines += ["2:"]
        return self.compile(f"{name}.s", assembly(*lines))

    def setUp(self) -> None:
        """Writes a script that takes the notes."""
        super().setUp()
        self.write("t.ld", SCRIPT.replace(".text : {", ".note : { *(.note.gnu.property) } .text : {"))

    def test_merged(self) -> None:
        """Features are those of all objects, what is needed that of any, what is used that of those that all say."""
        features, needed, used = self.FEATURES, self.NEEDED, self.USED
        a = self.note("a", (features, 3), (needed, 1), (used, 1))
        b = self.note("b", (features, 1), (used, 2))
        c = self.note("c", (needed, 4), (self.STACK, 4096))
        d = self.note("d")
        e = self.note("e", (features, 2), (self.MARKED, 2), (self.STACK, 8192))
        for words in ((a,), (a, b), (b, a), (b, e), (a, c), (c, a), (a, d), (d, a), (b, d), (d, b, e), (a, b, c, d, e),
                      (e, d, c)):
            with self.subTest(words=words):
                self.same(*words, "-e", "0x400000")

    def test_stack_size(self) -> None:
        """`-z stack-size` is a property, if an object has a note."""
        a, b = self.note("a", (self.FEATURES, 3)), self.note("b")
        c = self.note("c", (self.STACK, 8192), (self.NEEDED, 1))
        for words in ((a,), (b,), (b, a), (c,), (a, c)):
            for size in (4096, 0x10000):
                with self.subTest(words=words, size=size):
                    self.same(*words, "-e", "0x400000", "-z", f"stack-size={size}")

    def test_words(self) -> None:
        """`-z ibt` and the like make a note: GNU ld links, unless the script leaves all notes out."""
        words = "-T", "t.ld", self.note("a", (self.FEATURES, 2)), self.note("b"), "-e", "0x400000", "-o", "own"
        for word in ("ibt", "shstk", "x86-64-v3", "lam-u48", "indirect-extern-access"):
            self.assertEqual(self.ld("-z", word, *words, env={"LDI_FALLBACK": "none"}).returncode, 2, word)
            self.assertIn(f"-z {word}: a note of properties: linked by", self.ld("-z", word, *words).stderr)
        self.links("-z", "ibtplt", "-z", "lam-report=none", *words, env={"LDI_FALLBACK": "none"})
        self.write("t.ld", SCRIPT.replace("SECTIONS {", "SECTIONS { /DISCARD/ : { *(.note.gnu.property) }"))
        self.links("-z", "ibt", *words, env={"LDI_FALLBACK": "none"})

    def test_compiler(self) -> None:
        """What `gcc -fcf-protection` writes: one note, and none where an object has none."""
        flags = ("-fcf-protection=full",)
        a = self.compile("a.c", "int b(void); int _start(void) { return b(); }\n", *flags)
        b = self.compile("b.c", "int b(void) { return 4; }\n", *flags)
        self.assertIn(".note", [section.name for section in self.same(a, b)[0].sections])
        b = self.compile("b.c", "int b(void) { return 4; }\n", "-fcf-protection=none")
        self.assertNotIn(".note", [section.name for section in self.same(a, b)[0].sections])

    def test_with_a_server(self) -> None:
        """Edits by which the note stays, changes, and goes."""
        self.note("a", (self.FEATURES, 3))
        self.note("b", (self.FEATURES, 3))
        words = ("-T", "t.ld", "a.o", "b.o", "-e", "0x400000")
        for properties in (((self.FEATURES, 3),), ((self.FEATURES, 1),), (), ((self.FEATURES, 3), (self.NEEDED, 1))):
            with self.subTest(properties=properties):
                self.note("b", *properties)
                self.serves(*words, "-o", "own", env=NONE)
                self.must("ld.bfd", *words, "-o", "gnu")
                self.alike()
                self.compile("a.s", (self.folder / "a.s").read_text().replace("nop", "ret"))
                self.serves(*words, "-o", "own", env=NONE)
                self.must("ld.bfd", *words, "-o", "gnu")
                self.alike()
                self.compile("a.s", (self.folder / "a.s").read_text().replace("ret", "nop"))


@needs("ld.bfd")
class OrderTest(ObjectTest):
    """Sections with SHF_LINK_ORDER."""

    TEXT = """int {0}_cold(int a) {{ return a + 1; }}
__attribute__((section(".text.late"))) int {0}_late(int a) {{ return a + 2; }}
int {0}(int a) {{ return {0}_cold(a) + {0}_late(a); }}
"""

    def objects(self) -> list[str]:
        """Three objects with tables of functions that can be patched, one section for each of code."""
        flags = ("-fpatchable-function-entry=2", "-O1", "-fno-inline")
        return [self.compile(f"{name}.c", self.TEXT.format(name), *flags) for name in ("a", "b", "c")]

    def test_as_it_is(self) -> None:
        """Nothing to do where code is in the order of the objects, or the script leaves the tables out."""
        self.same(*self.objects(), "-e", "a")
        self.write("t.ld", SCRIPT.replace("__patchable_function_entries : { *(__patchable_function_entries) }", "")
                   .replace("*(.comment)", "*(.comment) *(__patchable*)"))
        self.same(*self.objects(), "-e", "a")

    def test_other_order(self) -> None:
        """Code in another order than the objects: the tables follow it."""
        for code in (".text : { c.o(.text) *(.text .text.*) }",
                     ".late : { *(.text.late) } .text : { *(.text .text.*) }",
                     ".text : { *(.text) c.o(.text.late) *(.text.late) }"):
            with self.subTest(code=code):
                self.write("t.ld", SCRIPT.replace(".text : { *(.text .text.*) }", code))
                self.links("-T", "t.ld", *self.objects(), "-e", "a", "-o", "own")
                self.must("ld.bfd", "-T", "t.ld", *self.objects(), "-e", "a", "-o", "gnu")
                self.assertEqual(read_image(self.read("own")).places(), read_image(self.read("gnu")).places())

    def test_of_one_size(self) -> None:
        """Two tables of one object that have the same size, in another order than there: it is said."""
        text = """int {0}(int a) {{ return a + 1; }}
__attribute__((section(".text.late"))) int {0}_late(int a) {{ return a + 2; }}
"""
        self.write("t.ld", SCRIPT.replace(".text : {", ".late : { *(.text.late) } .text : {"))
        names = [self.compile(f"{name}.c", text.format(name), "-fpatchable-function-entry=2", "-O1") for name in "ab"]
        done = self.links("-T", "t.ld", *names, "-e", "a", "-o", "own")
        self.must("ld.bfd", "-T", "t.ld", *names, "-e", "a", "-o", "gnu")
        if read_image(self.read("own")).places() != read_image(self.read("gnu")).places():
            self.assertIn("several __patchable_function_entries of a.o are in the order of that file", done.stderr)
