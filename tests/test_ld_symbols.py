"""Tables of symbols, each beside GNU ld's of the same words: all entries in their order."""
from __future__ import annotations

from tests.programs import LDI_WATCH, OutsideTest, needs
from tests.symbol_table import Table, read_table
from tests.test_ld_kernel import HEADER

NONE = {"LDI_FALLBACK": "none"}
SCRIPT = """ENTRY(start)
absolute = 0x1234;
SECTIONS {
    . = 0x200000; first = .;
    .text : { text_start = .; *(.text .text.*) }
    text_end = .; alias = function; near = function + 4;
    .rodata : { *(.rodata*) }
    before = .; . = ALIGN(0x1000); after = .;
    .empty : { }
    .data : { *(.data*) data_end = .; number = ABSOLUTE(.); }
    kept : { *(kept) }
    . = . + 0x10; moved = .;
    PROVIDE(provided = .); PROVIDE(nobody = .); PROVIDE_HIDDEN(provided_hidden = .); HIDDEN(hidden_here = .);
    size = SIZEOF(.data); place = ADDR(.data); both = ADDR(.data) + 4;
    .bss : { *(.bss*) *(COMMON) }
    _end = .; last = .;
    /DISCARD/ : { *(.drop) *(.comment) *(.note*) *(.eh_frame*) }
}
"""
FIRST = """
static int local_data = 3, local_bss;
int block;
__attribute__((weak)) void maybe(void);
__attribute__((visibility("hidden"))) int hidden = 4;
__attribute__((visibility("protected"))) int protected_one = 5;
__attribute__((visibility("internal"))) int internal = 6;
extern int provided, provided_hidden, by_hidden_name;
extern char __start_kept[], __stop_kept[];
int function(int x);
static __attribute__((noinline)) int used(int x) { return x * local_data + local_bss; }
static __attribute__((used)) int unused(void) { return 7; }
void start(void) {
    local_bss = used(block);
    if (maybe) maybe();
    block = provided + provided_hidden + hidden + protected_one + internal + by_hidden_name + function(1)
        + (__stop_kept - __start_kept);
}
"""
SECOND = """
static int local_data = 3;
static const char text[] = "a string";
__attribute__((weak)) int weak_one = 3;
__attribute__((section("kept"))) int in_kept = 2;
int by_hidden_name = 4;
const char *other(void) { return text; }
int function(int x) { return x + local_data; }
int nobody_calls(void) { return 8; }
"""
THIRD = """
.text
plain: nop
.Llabel: ret
.globl global_number
global_number = 0x77
number_here = 0x88
.hidden by_hidden_name
.data
.quad .Llabel, .Ltext, by_hidden_name
.section .rodata.str1.1,"aMS",@progbits,1
.Ltext: .string "abc"
named_text: .string "def"
.section .drop,"aw"
dropped: .quad 0
.weak nowhere
.quad nowhere
.section .note.GNU-stack
"""


@needs("ld.bfd", "gcc")
class SymbolTest(OutsideTest):
    """Links by both linkers."""

    def objects(self) -> list[str]:
        """Writes the script, and compiles three objects."""
        self.write("t.ld", SCRIPT)
        return self.compile_all()

    def compile_all(self) -> list[str]:
        """Compiles three objects."""
        return [self.compile("a.c", FIRST, "-fcommon"), self.compile("b.c", SECOND, "-fcommon"),
                self.compile("c.s", THIRD)]

    def same(self, *words: str) -> Table | None:
        """The table of the image by `ld.ldi`, which is that of GNU ld's."""
        self.links(*words, "-o", "own", env=NONE)
        self.must("ld.bfd", *words, "-o", "gnu")
        own, gnu = read_table(self.read("own")), read_table(self.read("gnu"))
        self.assertEqual(own is None, gnu is None)
        if own is not None and gnu is not None:
            self.assertEqual(own.entries, gnu.entries)
            self.assertEqual(own.first_global, gnu.first_global)
        return own


class OptionTest(SymbolTest):
    """What options leave out."""

    def test_options(self) -> None:
        """Local symbols, source files, the script's symbols and all others, in their order."""
        objects = self.objects()
        words = (), ("-x",), ("-X",), ("--discard-none",), ("-S",), ("-x", "-X"), ("-z", "unique-symbol"), ("-s", "-S")
        for word in (*words, ("-z", "start-stop-visibility=hidden")):
            with self.subTest(word):
                self.assertIsNotNone(self.same(*word, "-T", "t.ld", *objects))

    def test_wanted(self) -> None:
        """A name that is asked for is in the table, though nothing defines it (ldlang.c, `ldlang_add_undef`)."""
        objects = self.objects()
        self.write("more.ld", SCRIPT + "EXTERN(of_script function)\n")
        for words in (("-u", "missing"), ("-u", "nobody", "-u", "function", "-x"), ("-u", "missing", "-q")):
            for script in ("t.ld", "more.ld"):
                self.same(*words, "-T", script, *objects)
        table = self.same("-u", "missing", "-s", "-T", "t.ld", *objects)
        self.assertIsNone(table)
        plain = self.compile("plain.s", ".globl f\nf: nop\n")
        for words in ((), ("-e", "f"), ("-e", "missing"), ("-u", "_start"), ("-u", "f", "-e", "0x401000")):
            self.same(*words, plain)

    def test_none(self) -> None:
        """`-s`: the image has no table of symbols, and GNU ld's sections, also under the default script."""
        objects = self.objects()
        names = self.compile("d.s", ".globl _start, provided, provided_hidden\n_start: provided: provided_hidden:\n")
        for words in (("-T", "t.ld"), (names,)):
            self.assertIsNone(self.same("-s", *words, *objects))
            self.assertEqual(*(HEADER.findall(self.must("readelf", "-SW", name)) for name in ("own", "gnu")))

    def test_asked(self) -> None:
        """Names that `-u`, `-e`, EXTERN and ENTRY ask for are undefined if neither objects nor PROVIDE define them."""
        objects = self.objects()
        for words in (("-u", "absent"), ("-u", "nowhere"), ("-u", "nobody", "-u", "plain"),
                      ("-e", "no_start", "-u", "start"), ("--gc-sections", "-u", "absent"), ("-q", "-u", "absent"),
                      ("-s", "-u", "absent")):
            self.same(*words, "-T", "t.ld", *objects)
        self.write("extern.ld", SCRIPT.replace("ENTRY(start)", "ENTRY(no_start) EXTERN(absent function)"))
        self.same("-T", "extern.ld", *objects)

    def test_retained(self) -> None:
        """`--retain-symbols-file`: the names in the file alone; the last of `-s`, `-S` and this counts."""
        objects = self.objects()
        self.write("kept", "start local_data\n\tabsolute here_not alias a.c __start_kept")
        for words in ((), ("-x",), ("-s",), ("--emit-relocs",)):
            self.same(*words, "--retain-symbols-file", "kept", "-T", "t.ld", *objects)
        self.assertIsNone(self.same("--retain-symbols-file=kept", "-s", "-T", "t.ld", *objects))
        self.same("--retain-symbols-file=kept", "-S", "-T", "t.ld", *objects)

    def test_retained_later(self) -> None:
        """The file is an input: a server sees that it is another."""
        words = "--retain-symbols-file=kept", "-T", "t.ld", *self.objects()
        for text in ("start", "start function", ""):
            self.write("kept", text)
            self.serves(*words, "-o", "own", env=NONE)
            self.must("ld.bfd", *words, "-o", "gnu")
            self.assertEqual(read_table(self.read("own")), read_table(self.read("gnu")))

    def test_not_loaded(self) -> None:
        """Symbols of sections that are not loaded."""
        more = ".notes (INFO) : { *(.notes) in_notes = .; } .comment 0 : { *(.comment) }"
        script = SCRIPT.replace("*(.comment) *(.note*)", "*(.note.*)")
        self.write("t.ld", script.replace("last = .;", f"last = .; {more}"))
        name = self.compile("n.s", '.section .notes,""\nlocal_note: .quad 4\n.globl global_note\nglobal_note: .quad 5\n'
                            '.section .note.GNU-stack\n')
        objects = [*self.compile_all(), name]
        for words in ((), ("-x",), ("-s",), ("--emit-relocs",)):
            with self.subTest(words):
                self.same(*words, "-T", "t.ld", *objects)

    def test_sections_that_are_left_out(self) -> None:
        """`--gc-sections`: neither local symbols nor names of what is left out."""
        objects = self.objects()
        for word in ((), ("-x",), ("-u", "nobody_calls"), ("--discard-none",)):
            with self.subTest(word):
                self.same("--gc-sections", *word, "-T", "t.ld", *objects)

    def test_types_of_what_is_left_out(self) -> None:
        """A symbol has the type of the name that it is assigned, also of one that `--gc-sections` leaves out, or of
        itself."""
        self.write("t.ld", "SECTIONS { alias = block; . = 0x1000; .text : { *(.text) } alias = .; }")
        name = self.compile("a.s", ".globl start\nstart: nop\n.comm block, 8, 8\n.type f, @function\n"
                            ".section .text.f\n.globl f\nf: nop\n.section .note.GNU-stack\n")
        table = self.same("--gc-sections", "-e", "start", "-T", "t.ld", name)
        self.assertEqual([entry.kind for entry in table.entries if entry.name == "alias"] if table else [], ["OBJECT"])
        self.write("t.ld",
                   "alias = block; SECTIONS { . = 0x1000; .text : { *(.text*) alias = alias; } .bss : { *(COMMON) } }")
        self.same("-e", "start", "-T", "t.ld", name)

    def test_sections_that_are_not_made(self) -> None:
        """ONLY_IF_RO that is not met: what counts from such a section is undefined, and there if it is strong."""
        self.write("t.ld", "SECTIONS { .text : { *(.text) } .not : ONLY_IF_RO { *(.data) inside = 4; inside_used = 5; }"
                           " outside = inside; HIDDEN(hidden = inside); weak = inside; .data : { *(.data) } }")
        name = self.compile("a.s", ".globl start\nstart: nop\n.weak weak\n.data\n.quad weak, inside_used\n"
                            ".section .note.GNU-stack\n")
        for words in ((), ("--emit-relocs",)):
            with self.subTest(words):
                self.same("-e", "start", *words, "-T", "t.ld", name)

    def test_zeros_that_are_not_loaded(self) -> None:
        """A section without bytes in one of type INFO."""
        self.write("t.ld", "SECTIONS { . = 0x1000; .info (INFO) : { *(.bss) } .text : { *(.text) } last = .; }")
        self.same("-T", "t.ld", self.compile("a.s", ".globl start\nstart: nop\n.bss\n.skip 12\n.globl zeros\nzeros: "
                                             ".skip 8\n.section .note.GNU-stack\n"))

    def test_files_that_statements_name(self) -> None:
        """A file that a statement names is read there: a PROVIDE after it counts for what it asks for."""
        self.write("t.ld", "SECTIONS { . = 0x1000; PROVIDE(asked = 1); .first : { b.o(.text) }"
                           " PROVIDE(asked = ADDR(.first)); .text : { *(.text) } }")
        objects = [self.compile("a.s", ".globl start\nstart: nop\n.section .note.GNU-stack\n"),
                   self.compile("b.s", ".text\n.quad asked\n.section .note.GNU-stack\n")]
        self.same("-e", "start", "-T", "t.ld", *objects)

    def test_sections_of_one_name(self) -> None:
        """The right one of several output sections of a name: not an empty one, and the first that was made of
        `.text`."""
        self.write("t.ld",
                   "SECTIONS { . = 0x1000; .info : { . = ALIGN(16); } .text : { *(.nothing) } .code : { *(.text) }"
                   " .info (COPY) : { *(.own) } .d : { *(.data) } .text : AT(ADDR(.text)) { end = 2; }"
                   " .r : { BYTE(1) } }")
        name = self.compile("a.s",
                            ".globl start\nstart: nop\n.data\n.long 1\n.section .own,\"a\"\n.globl own\n.byte 1\n"
                            "own: .byte 2\n.section .note.GNU-stack\n")
        self.same("-e", "start", "-T", "t.ld", name)

    def test_empty_orphans_of_one_name(self) -> None:
        """A name in one of several orphans of a name that GNU ld takes out, as they are empty."""
        self.write("t.ld", "SECTIONS { . = 0x1000; .code : { *(.text) } .data : { *(.data) } .z : { BYTE(1) } }")
        kinds = '"a"', '"aw",@init_array', '"ax"', '"aw",@nobits'
        objects = [self.compile(f"{name}.s", f".globl {name}\n.section .fast,{kind}\n{name}: {more}\n.text\nnop\n"
                                ".section .note.GNU-stack\n")
                   for name, kind, more in zip("abcd", kinds, ("", "", "", ".skip 4"))]
        for order in (objects, objects[::-1], [objects[2], objects[0], objects[1]]):
            self.same("-T", "t.ld", *order)

    def test_order_of_addresses(self) -> None:
        """`-Ttext` and `--section-start` make their sections where they stand: before or after those of the script."""
        self.write("t.ld", "SECTIONS { . = 0x1000; .data : { *(.data) } .text : { *(.text) } .code : { *(.code) } }")
        objects = [self.compile(f"{name}.s", f"{part}\nlocal_{name}: nop\n.section .note.GNU-stack\n") for name, part in
                   zip("abc", (".globl start\nstart: nop", ".data", '.section .code,"ax"'))]
        for name in objects:
            self.must("objcopy", "-R", ".bss", "-R", ".text" if name != "a.o" else ".data", name)
        for words in (("-Ttext=0x5000", "-T", "t.ld"), ("-T", "t.ld", "-Ttext=0x5000"),
                      ("-T", "t.ld", "--section-start=.code=0x8000", "-Ttext=0x5000")):
            with self.subTest(words):
                self.same("-e", "start", *words, *objects)

    def test_order_of_orphans(self) -> None:
        """Local symbols are in the order of GNU ld's list of sections, in which orphans stand by their kinds."""
        self.write("t.ld", "SECTIONS { . = 0x1000; .rodata : { *(.nothing) } .code : { *(.text .data .bss) } }")
        note = ',"a",@note\n.long 4, 4, 1, 0, 0'
        parts = (".text\n.globl start\nstart: nop", '.section .rodata.b,"a"', '.section .rodata,"a"', ".data",
                 '.section .rodata.d,"a"', f".section .note.e{note}", f".section .note.f{note}", '.section .fast,"ax"')
        objects = [self.compile(f"{name}.s", f"{part}\nlocal_{name}: .byte 1\n.section .note.GNU-stack\n")
                   for name, part in zip("abcdefgh", parts)]
        for order in (objects, objects[::-1], [*objects[3:], *objects[:3]]):
            self.same("-e", "start", "-T", "t.ld", *order)

    def test_script_after_objects(self) -> None:
        """The order of names where the objects are read before the script."""
        self.same(*self.objects(), "-T", "t.ld")


class ObjectTest(SymbolTest):
    """Kinds of objects."""

    def test_archives(self) -> None:
        """Members, of which one says no source file: it has the member's name."""
        first, second, third = self.objects()
        self.must("ar", "rc", "lib.a", second, third)
        self.same("-T", "t.ld", first, "lib.a")
        self.same("-T", "t.ld", first, "--whole-archive", "lib.a")

    def test_groups(self) -> None:
        """C++: local symbols of a section that another object's takes the place of."""
        self.write("t.ld", SCRIPT.replace("alias = function; near = function + 4;", ""))
        text = """template<class T> struct A { virtual T f(T x) { static T s = 3; return s + x; } };
        static int local() { return 1; }
        """
        flags = "-fno-rtti", "-fno-exceptions", "-fno-threadsafe-statics"
        objects = [self.compile("a.cc", text + "int one() { A<int> a; A<long> b; return a.f(3) + b.f(4) + local(); }",
                                *flags),
                   self.compile("b.cc", text + "int one(); extern \"C\" int start() { A<int> a; A<char> b; "
                                "return a.f(3) + b.f(4) + one() + local(); }", *flags)]
        self.same("-T", "t.ld", *objects)
        self.assertEqual(self.read("own")[7], self.read("gnu")[7])  # EI_OSABI, of STB_GNU_UNIQUE
        self.same("--gc-sections", "-T", "t.ld", *objects)

    def test_many_names(self) -> None:
        """GNU ld's table of names grows: their order is its own."""
        self.write("t.ld", SCRIPT.replace("alias = function; near = function + 4;", ""))
        lines = [f"int name_{number};" for number in range(7000)]
        objects = [self.compile(f"m{part}.c", "\n".join(lines[part * 1000:][:1000])) for part in range(7)]
        objects.append(self.compile("s.c", "int start(void) { return 0; }"))
        self.same("-T", "t.ld", *objects)


class LaterTest(SymbolTest):
    """Later calls, by a server and by `ldi-watch`."""

    EDITS = (
        ("b.c", SECOND.replace("return x + local_data", "return x * 7 - local_data * x + 3")),
        ("b.c", SECOND.replace("local_data", "renamed_data")),
        ("b.c",
         SECOND + "static __attribute__((used)) int more(void) { return 9; }\nint new_name(void) { return 4; }\n"),
        ("a.c", FIRST.replace("static __attribute__((used)) int unused", "int unused")),
        ("a.c", FIRST),
        ("b.c", SECOND),
    )
    """Sources, and what they become."""

    def test_a_server(self) -> None:
        """Each later call gives the table that GNU ld gives of the objects as they are now."""
        objects = self.objects()
        words = "-T", "t.ld", *objects
        for number, (name, text) in enumerate((("a.c", FIRST), *self.EDITS)):
            self.compile(name, text, "-fcommon")
            self.serves(*words, "-o", "own", env=NONE)
            self.must("ld.bfd", *words, "-o", "gnu")
            self.assertEqual(read_table(self.read("own")), read_table(self.read("gnu")), name)
            self.assertEqual(self.calls(), number)

    def test_a_watch(self) -> None:
        """`ldi-watch` writes the same table."""
        objects = self.objects()
        self.must(LDI_WATCH, "--once", "-T", "t.ld", "-o", "own", *objects, env=NONE)
        self.must("ld.bfd", "-T", "t.ld", *objects, "-o", "gnu")
        self.assertEqual(read_table(self.read("own")), read_table(self.read("gnu")))
