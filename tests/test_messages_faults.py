"""A sentence for each fault line, over links that have them: the manual's example of each, and what else they may say.
"""
from __future__ import annotations

from tests.message_links import SCRIPT, MessageTest, assembled, compiled

DEFINES_F = assembled(".globl f\nf: ret")
RETURNS = assembled("ret")
CALLS_F = assembled("call f")
TWO_SECTIONS = assembled('.section .d,"aw"\n.quad 1\n.section .e,"aw"\n.quad 2')
DISCARDS_E = "SECTIONS { . = 0x401000; /DISCARD/ : { *(.e) } .text : { *(.text) } }"


def section_d(size: int) -> bytes:
    """An object with a section `.d` of so many bytes."""
    return assembled(f'.section .d,"aw"\n.skip {size}')


class NamesTest(MessageTest):
    """F1 and F2."""

    def test_two_objects(self) -> None:
        """F1 by two objects."""
        wanted = "c.o: (.text+0x0): multiple definition of `f'; a.o: (.text+0x0): first defined here [F1 f c.o a.o]"
        self.check(SCRIPT, {"a.o": DEFINES_F, "b.o": RETURNS, "c.o": DEFINES_F}, [wanted])

    def test_script_and_object(self) -> None:
        """F1 by the script and an object, also where the object has the name `script`."""
        for name in ("a.o", "script"):
            self.check(f"\nf = 1;\n{SCRIPT}", {name: DEFINES_F}, [
                f"{name}: (.text+0x0): multiple definition of `f'; image.ld:2: first defined here, by the script "
                f"[F1 f {name} script]"])

    def test_object_named_script(self) -> None:
        """F1 by an object of the name `script`, where the script does not assign the symbol."""
        self.check(SCRIPT, {"script": DEFINES_F, "a.o": DEFINES_F}, [
            "a.o: (.text+0x0): multiple definition of `f'; script: (.text+0x0): first defined here [F1 f a.o script]"])

    def test_number(self) -> None:
        """F1 of symbols that are numbers: they have no place."""
        number = assembled(".globl f\nf = 5")
        self.check(SCRIPT, {"a.o": number, "b.o": number}, [
            "b.o: multiple definition of `f'; a.o: first defined here [F1 f b.o a.o]"])

    def test_lines(self) -> None:
        """F1 with the source lines of functions and of variables."""
        first = compiled("int other;\nint f(void)\n{\n  return other;\n}\nint v = 1;", "-g", "-fdata-sections")
        again = compiled("int f(void) { return 2; }\n\nint v = 2;", "-gdwarf-4", "-fdata-sections")
        self.check(SCRIPT, {"a.o": first, "b.o": again}, [
            "/project/text.c:1: (b.o .text+0x0): multiple definition of `f'; "
            "/project/text.c:3: (a.o .text+0x0): first defined here [F1 f b.o a.o]",
            "/project/text.c:3: (b.o .data.v+0x0): multiple definition of `v'; "
            "/project/text.c:6: (a.o .data.v+0x0): first defined here [F1 v b.o a.o]"])

    def test_entry(self) -> None:
        """F2 by ENTRY and by `-e`, whose symbol may have any bytes."""
        self.check(f"ENTRY(main)\n{SCRIPT}", {}, ["image.ld:1: undefined entry symbol `main' [F2 main]"])
        self.check(SCRIPT, {}, ["ldi: undefined entry symbol `main', given to -e [F2 main]"], "-e", "main")
        self.check(SCRIPT, {}, ["ldi: undefined entry symbol `', given to -e [F2 ]"], "-e", "")
        self.check(SCRIPT, {}, [r"ldi: undefined entry symbol `a b\nF3 a.o .c', given to -e [F2 a b\nF3 a.o .c]"],
                   "-e", "a b\nF3 a.o .c")

    def test_provided_entry(self) -> None:
        """F2 where a PROVIDE has the name, but nothing uses it."""
        self.check(f"ENTRY(main) PROVIDE(main = 4);{SCRIPT}", {}, [
            "image.ld:1: undefined entry symbol `main'; its PROVIDE counts only if an object uses the name [F2 main]"])


class GatheringTest(MessageTest):
    """F3."""

    def test_orphan(self) -> None:
        """F3 with the size of the section."""
        self.check(SCRIPT, {"a.o": assembled(".data\n.long 1"), "b.o": assembled(".data\n.byte 1")}, [
            "a.o: (.data): no statement of image.ld takes this section of 4 bytes; "
            "add one that does, or /DISCARD/, or --orphan-handling=discard [F3 a.o .data]",
            "b.o: (.data): no statement of image.ld takes this section of 1 byte; "
            "add one that does, or /DISCARD/, or --orphan-handling=discard [F3 b.o .data]"])

    def test_two_of_a_name(self) -> None:
        """Of two sections of one name no size is said; nor of a common block."""
        two = assembled('.section .d,"aw",@progbits,unique,1\n.long 1\n.section .d,"aw",@progbits,unique,2\n.byte 1')
        wanted = ("a.o: (.d): no statement of image.ld takes this section; "
                  "add one that does, or /DISCARD/, or --orphan-handling=discard [F3 a.o .d]")
        self.check(SCRIPT, {"a.o": two}, [wanted, wanted])
        self.check(SCRIPT, {"a.o": assembled(".comm c, 8")}, [wanted.replace(".d", "COMMON")])


class LayoutTest(MessageTest):
    """F4 to F11."""

    def test_not_ready(self) -> None:
        """F4 of a symbol that is assigned below, and of a section inside itself."""
        script = "SECTIONS {\n  . = first + 16;\n  .text : { *(.text) }\n  first = 0x1000;\n}"
        self.check(script, {}, [
            "image.ld:2: `first' has no value yet, image.ld:4 assigns it: . = first + 16; [F4 2 first]"])
        script = "SECTIONS { .a : { BYTE(SIZEOF(.a)) } }"
        self.check(script, {}, [f"image.ld:1: `.a' is not complete here: {script} [F4 1 .a]"])

    def test_why_not_ready(self) -> None:
        """F4 of an object's symbol, of a PROVIDE that nothing uses, of GNU ld's types, and of a name of nothing."""
        for script, why in [
            ("SECTIONS { x = f; }", "`f' is a symbol of an object: ASSERT alone may name it"),
            ("PROVIDE(g = 1); SECTIONS { x = g; }",
             "`g' has no value here: its PROVIDE counts only if an object uses the name"),
            ("SECTIONS { x = a-b; }", "`a-b' is not defined"),
            ("SECTIONS { .a (COPY) : { BYTE(1) } }",
             "there are no types of output sections, so that `COPY' is a symbol, which nothing defines"),
        ]:
            with self.subTest(script):
                objects = {"a.o": DEFINES_F}
                message, = self.messages(script, objects, "--orphan-handling", "discard")
                self.assertEqual(message.sentence, f"image.ld:1: {why}: {script}")

    def test_no_value(self) -> None:
        """F5, with the reason where the statement has only one."""
        for statement, reason in [
            (". = ALIGN(12);", "ALIGN to no power of two"),
            ("x = 8 % (4 - 4);", "division or remainder by 0"),
            (".a ALIGN(. / 3) : { *(.x/*) }", "division or remainder by 0, or ALIGN to no power of two"),
            (".a : { *(.x/*) x = ALIGN(1,\n5); }", "ALIGN to no power of two"),
        ]:
            with self.subTest(statement):
                script = f"SECTIONS {{\n . = 1;\n  {statement}\n}}"
                text = statement.partition("\n")[0]
                self.check(script, {}, [f"image.ld:3: {reason}: {text} [F5 3]"])

    def test_region_line(self) -> None:
        """F5 in MEMORY."""
        script = "MEMORY {\n r : ORIGIN = 0, LENGTH = 1\n q : ORIGIN = 1 /\n 0, LENGTH = 1 } SECTIONS { }"
        self.check(script, {}, ["image.ld:3: division or remainder by 0: q : ORIGIN = 1 / [F5 3]"])

    def test_moved_back(self) -> None:
        """F6."""
        script = "SECTIONS {\n  .d : {\n    *(.d)\n    . = 4;\n  }\n}"
        self.check(script, {"a.o": section_d(8)}, [
            "image.ld:4: `.' would go back; raise the number, which counts from the section's start: . = 4; [F6 4]"])

    def test_region(self) -> None:
        """F7 of addresses, of load addresses, and where both name the region."""
        memory = "MEMORY { r : ORIGIN = 0x1000,\n LENGTH = 4 + 4 /* c */\n q : ORIGIN = 16, LENGTH = 1M }\nSECTIONS {\n"
        for tail, region, what, numbers in [
            (">r", "r", "addresses", "image.ld:1: ORIGIN = 0x1000, LENGTH = 4 + 4"),
            (">q AT>r", "r", "load addresses", "image.ld:1: ORIGIN = 0x1000, LENGTH = 4 + 4"),
            (">r AT>q", "r", "addresses", "image.ld:1: ORIGIN = 0x1000, LENGTH = 4 + 4"),
            (">r AT>r", "r", "addresses, or load addresses,", "image.ld:1: ORIGIN = 0x1000, LENGTH = 4 + 4"),
        ]:
            with self.subTest(tail):
                self.check(f"{memory} .d : {{ *(.d) }} {tail} }}", {"a.o": section_d(9)}, [
                    f"image.ld:5: section `.d' will not fit in region `{region}' ({numbers}): "
                    f"its {what} are not all in it; raise LENGTH, or place less there [F7 .d r]"])

    def test_past_address_space(self) -> None:
        """F8 of an input section, and of a start."""
        script = "SECTIONS {\n  . = 0xFFFFFFFFFFFFFFFC;\n  .text : {\n    *(.text)\n  }\n}"
        fault = "an address, an end or `.' would be 2^64 or more; lower the address or the size"
        self.check(script, {"a.o": assembled(".long 1")}, [f"image.ld:4: {fault}: *(.text) [F8 4]"])
        self.check(script, {"a.o": assembled(".balign 16")}, [f"image.ld:3: {fault}: .text : {{ [F8 3]"])

    def test_overlap(self) -> None:
        """F9 and F10."""
        load = "the load addresses of section `.e' overlap those of `.d' (image.ld:%d); correct AT(..), or use AT>"
        script = "SECTIONS { . = 0x2000; .d : { *(.d) } . = 0x2004;\n .e : { *(.e) } }"
        self.check(script, {"a.o": TWO_SECTIONS}, [
            "image.ld:2: the addresses of section `.e' overlap those of `.d' (image.ld:1); move one of the two "
            "[F9 .e .d]",
            "image.ld:2: " + load % 1 + " [F10 .e .d]"])
        script = "SECTIONS { . = 0x2000;\n.d : AT(0x8000) { *(.d) }\n.e : AT(0x8004) { *(.e) } }"
        self.check(script, {"a.o": TWO_SECTIONS}, ["image.ld:3: " + load % 2 + " [F10 .e .d]"])

    def test_length(self) -> None:
        """F11."""
        self.check("SECTIONS { . = 0x1000; .d : { BYTE(1) . = 256M; } }", {}, [
            "image.ld: the image would have 268439928 bytes, more than 268435456; close the gaps in sections with file "
            "bytes, or keep what has no contents in sections of its own at the end [F11 268439928]"])


class RelocationTest(MessageTest):
    """F12 to F14."""

    def test_undefined(self) -> None:
        """F12 without source lines: with the function where the object names one."""
        self.check(SCRIPT, {"a.o": CALLS_F}, [
            "a.o: (.text+0x1): undefined reference to `f' [F12 a.o .text 0000000000000001 f]"])
        function = compiled("int f(void);\nint main(void) { return f() + 1; }")
        message, = self.messages(SCRIPT, {"a.o": function})
        self.assertRegex(str(message), r"^a\.o: in `main': \(\.text\+0x[0-9a-f]+\): undefined reference to `f' \[F12 ")

    def test_undefined_lines(self) -> None:
        """F12 with the source line: of code, and of a variable."""
        source = "int write_line(void);\nextern int w;\nint *p[2] = {\n 0, &w };\nint main(void)\n{\n" \
                 "  int n = 1;\n\n  return write_line() + n;\n}"
        objects = {"text.o": compiled(source, "-g")}
        script = "SECTIONS { . = 0x401000; .text : { *(.text) } .data : { *(.data) } }"
        code, data = self.messages(script, objects)
        self.assertRegex(str(code), r"^/project/text\.c:9: \(text\.o \.text\+0x(\w+)\): undefined reference to "
                                    r"`write_line' \[F12 text\.o \.text 0{14,15}\1 write_line\]$")
        self.assertEqual(str(data), "/project/text.c:3: (text.o .data+0x8): undefined reference to `w' "
                                    "[F12 text.o .data 0000000000000008 w]")

    def test_same_sections(self) -> None:
        """F12 in one of two sections of a name: with the line where only one of them has the reference there."""
        unique = '.section .text,"ax",@progbits,unique,%d\n.loc 1 %d\ncall %s\n'
        start = '.file "a.s"\n.file 1 "/s/a.s"\n'
        self.check(SCRIPT, {"a.o": assembled(start + unique % (1, 5, "f") + unique % (2, 6, "g"))}, [
            "/s/a.s:5: (a.o .text+0x1): undefined reference to `f' [F12 a.o .text 0000000000000001 f]",
            "/s/a.s:6: (a.o .text+0x1): undefined reference to `g' [F12 a.o .text 0000000000000001 g]"])
        wanted = "a.o: (.text+0x1): undefined reference to `f' [F12 a.o .text 0000000000000001 f]"
        self.check(SCRIPT, {"a.o": assembled(start + unique % (1, 5, "f") + unique % (2, 6, "f"))}, [wanted, wanted])

    def test_slim_lto(self) -> None:
        """F2, F3 and F12 that come of an object of slim LTO."""
        slim = compiled("int f(void) { return 2; }\nint g(void);\nint main(void) { return g(); }", "-flto",
                        "-fno-fat-lto-objects")
        why = "is an object of slim LTO and has no code: compile it with -fno-lto"
        common = "SECTIONS { . = 0x401000; .text : { *(.text COMMON) } }"
        self.check(common, {"a.o": CALLS_F, "slim.o": slim}, [
            f"a.o: (.text+0x1): undefined reference to `f'; slim.o defines it, but {why} "
            "[F12 a.o .text 0000000000000001 f]"])
        self.check(common, {"a.o": assembled("call g"), "slim.o": slim}, [
            "a.o: (.text+0x1): undefined reference to `g' [F12 a.o .text 0000000000000001 g]"])
        self.check(common, {"slim.o": slim}, [
            f"ldi: undefined entry symbol `main', given to -e; slim.o defines it, but {why} [F2 main]"],
            "-e", "main")
        self.check(SCRIPT, {"slim.o": slim}, [
            f"slim.o: (COMMON): no statement of image.ld takes this section; slim.o {why} [F3 slim.o COMMON]"])

    def test_left_out(self) -> None:
        """F13 of a name, of a section, of a name that another object defines, and of one that is not certain."""
        tail = "which is not in the output; take it in"
        there = '\n.section .e,"ax"\n.globl f\nf: ret'
        self.check(DISCARDS_E, {"a.o": assembled("call f" + there)}, [
            f"a.o: (.text+0x1): `f' is defined in section `.e' of a.o, {tail} [F13 a.o .text 0000000000000001 1]"])
        self.check(DISCARDS_E, {"a.o": CALLS_F, "b.o": assembled(there)}, [
            f"a.o: (.text+0x1): `f' is defined in section `.e' of b.o, {tail} [F13 a.o .text 0000000000000001 1]"])
        message, = self.messages(DISCARDS_E, {"a.o": assembled('.quad 1f\n.section .e,"ax"\n1: ret')})
        self.assertEqual(message.sentence, f"a.o: (.text+0x0): this refers to section `.e' of a.o, {tail}")
        weak = assembled('.section .e,"ax"\n.weak f\nf: ret')
        message, = self.messages(DISCARDS_E, {"a.o": CALLS_F, "b.o": weak, "c.o": weak})
        self.assertEqual(message.sentence, f"a.o: (.text+0x1): `f' is defined in a section, {tail}")

    def test_entry_left_out(self) -> None:
        """F13 of the entry symbol."""
        objects = {"a.o": assembled('.section .e,"ax"\n.globl f\nf: ret')}
        tail = "the entry symbol `f' is defined in a section that is not in the output; take it in [F13 entry]"
        self.check(f"ENTRY(f)\n{DISCARDS_E}", objects, [f"image.ld:1: {tail}"])
        self.check(f"ENTRY(g)\n{DISCARDS_E}", objects, [f"ldi: {tail}"], "-e", "f")

    def test_overflow(self) -> None:
        """F14 of each type that has a range."""
        script = "SECTIONS { .data : { *(.data) } }"
        lower, nearer = "place what it refers to lower", "place the two nearer to each other"
        model = ", or compile for another code model"
        signed = "not from -0x80000000 to 0x7fffffff"
        for kind, number, target, shown, advice in [
            ("32S", 11, 1 << 31, f"0x80000000 is {signed}", lower + model),
            ("32", 10, 1 << 32, "0x100000000 is not from 0x0 to 0xffffffff", lower + model),
            ("PC32", 2, -(1 << 31), f"-0x80000004 is {signed}", nearer + model),
            ("PLT32", 4, (1 << 31) + 4, f"0x80000000 is {signed}", nearer + model),
            ("16", 12, 1 << 16, "0x10000 is not from -0x8000 to 0xffff", lower),
            ("PC16", 13, (1 << 15) + 4, "0x8000 is not from -0x8000 to 0x7fff", nearer),
            ("8", 14, -129, "-0x81 is not from -0x80 to 0xff", lower),
            ("PC8", 15, 1 << 63, "0x7ffffffffffffffc is not from -0x80 to 0x7f", nearer),
        ]:
            with self.subTest(kind):
                field = f".data\n.long 0\n.reloc ., R_X86_64_{kind}, far\n.quad 0\n.globl far\nfar = {target}"
                message, = self.messages(script, {"a.o": assembled(field)})
                self.assertEqual(message.sentence, "a.o: (.data+0x4): relocation truncated to fit: "
                                 f"R_X86_64_{kind} against `far'; its value {shown}: {advice}")
                self.assertRegex(message.line, f"^F14 a.o .data 0000000000000004 {number} [0-9a-f]{{16}}$")

    def test_overflow_of_section(self) -> None:
        """F14 against a section."""
        script = "SECTIONS { . = 0x401000; .text : { *(.text) } . = 0x200000000; .data : { *(.data) } }"
        source = "static int v = 1;\nint main(void)\n{\n  return v++;\n}"
        messages = self.messages(script, {"a.o": compiled(source, "-g")})
        self.assertRegex(messages[0].sentence, r"^/project/text\.c:4: \(a\.o \.text\+0x\w+\): relocation truncated to "
                                               r"fit: R_X86_64_PC32 against section `\.data'; its value 0x1ff")


class AssertionTest(MessageTest):
    """F15."""

    def test_assertion(self) -> None:
        """F15 with the message, without one, and with names that nothing defines."""
        objects = {"a.o": assembled(".long 1")}
        text = 'ASSERT(SIZEOF(.text) <= 3, "text too big")'
        self.check(f"{SCRIPT}\n{text}", objects, [f"image.ld:2: assertion failed: text too big: {text} "
                                                  "[F15 2 text too big]"])
        text = 'ASSERT(SIZEOF(.text) <= 3, "") ASSERT(x < end + LENGTH(r) + x, "a  b")'
        script = f"MEMORY {{ r : ORIGIN = 0, LENGTH = 1 }} {SCRIPT}\n{text}"
        self.check(script, objects, [
            f"image.ld:2: assertion failed: {text} [F15 2 ]",
            f"image.ld:2: assertion failed: a  b; nothing defines `x'; nothing defines `end': {text} [F15 2 a  b]"])
