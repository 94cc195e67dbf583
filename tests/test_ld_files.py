"""`ld.ldi`: files that scripts name, several scripts, and the rule of make for what was read; beside GNU ld."""
from __future__ import annotations

from tests.linking import BesideGnu, needs

BODY = ".all : { *(.text .data .bss COMMON) } /DISCARD/ : { *(.note*) }"
START = ".globl _start\n_start: nop\n.data\n.long 1\n"


@needs("ld.bfd")
class FilesTest(BesideGnu):
    """Each link is made by both; the symbols are the same, and the bytes of all sections."""

    def setUp(self) -> None:
        """A program, an object in each of two folders, an archive."""
        super().setUp()
        self.compile("m.s", START)
        for name in ("vec", "near/far", "sub/mem", "sub/mem2", "both", "near/both"):
            self.write(name + ".s", "")
            word = name.replace("/", "_")
            self.compile(f"{name}.s", f".globl in_{word}\nin_{word}: nop\n.data\n.long 5\n")
        self.run_tool("ar", "rcs", "libq.a", "sub/mem.o", "sub/mem2.o")

    def script(self, statement: str, *before: str, body: str = BODY) -> None:
        """A script with a statement before all others."""
        text = f"{' '.join(before)} SECTIONS {{ . = 0x1000; .a : {{ {statement} }} {body} }}"
        self.write("t.ld", f"ENTRY(_start) {text}")

    def test_file_of_a_statement(self) -> None:
        """A file that a statement names is linked, before the objects where -T stands before them."""
        for statement in ('"vec.o"(.text)', "KEEP(vec.o(.text))", "vec.o", "near/far.o(.text)", "none.o(.text)",
                          "EXCLUDE_FILE(x.o) vec.o(.text)", "far.o(.text)", "*(EXCLUDE_FILE(vec.o) .data)"):
            self.script(statement)
            for words in ("-T t.ld m.o", "-L near -T t.ld m.o"):
                with self.subTest(statement=statement, words=words):
                    self.both(*words.split())
        self.script("vec.o(.text)")
        for words in ("m.o -T t.ld", "-dT t.ld m.o", "-T t.ld m.o vec.o", "-T t.ld m.o ./vec.o"):
            with self.subTest(words=words):
                self.both(*words.split())

    def test_archive_of_a_statement(self) -> None:
        """An archive is opened, and its members are not taken by its name; a member is no file, and opens none."""
        for statement in ("libq.a(.data)", "libq.a:mem.o(.text)", "mem.o(.text)", "*mem.o(.text)"):
            self.script(statement)
            for words in ("-T t.ld -u in_sub_mem2 m.o", "-T t.ld m.o --whole-archive libq.a",
                          "-T t.ld m.o libq.a -u in_sub_mem"):
                with self.subTest(statement=statement, words=words):
                    self.both(*words.split())

    def test_patterns_of_members(self) -> None:
        """A pattern matches the name of a member, and not that of the object in the session; rows keep their order."""
        for statement in ("lib*(.text)", "*mem*(.text)", "*o(.text)", "m*(.text)", "*(EXCLUDE_FILE(*libq.a) .text)",
                          "*libq.a:m*(.text)", "EXCLUDE_FILE(*.a:mem.o) *(.text)", ":m*(.text)"):
            self.script(statement)
            with self.subTest(statement=statement):
                self.both("-T", "t.ld", "libq.a", "-u", "in_sub_mem", "m.o", "vec.o")
        self.run_tool("ar", "rcs", "twin.a", "near/both.o")
        for statement in ("both.o(.text)", "*both.o(.text)", "twin.a(.text)", "*(EXCLUDE_FILE(both.o) .text)"):
            self.script(statement)
            with self.subTest(statement=statement):
                self.both("-T", "t.ld", "m.o", "twin.a", "-u", "in_near_both", "both.o")

    def test_inputs(self) -> None:
        """INPUT, GROUP, STARTUP and SEARCH_DIR of a -T, and of a script among the objects."""
        for commands in ("INPUT(vec.o)", "INPUT(far.o)", "SEARCH_DIR(near) INPUT(far.o)", "SEARCH_DIR(near) INPUT(-lq)",
                         "GROUP(libq.a AS_NEEDED(vec.o)) EXTERN(in_sub_mem)", "INPUT(vec.o far.o)",
                         "SEARCH_DIR(near) STARTUP(far.o) INPUT(both.o)", "GROUP ( -lq ) EXTERN(in_sub_mem)"):
            self.script("*(.none)", commands)
            for words in ("-T t.ld m.o", "-L near -L . -T t.ld m.o"):
                with self.subTest(commands=commands, words=words):
                    self.both(*words.split())
        self.script("*(.none)", "SEARCH_DIR(near) INPUT(far.o)")
        for words in ("m.o -T t.ld", "-T t.ld -L . m.o", "-nostdlib -T t.ld m.o"):
            with self.subTest(words=words):
                self.both(*words.split())
        self.script("*(.none)")
        for text in ("INPUT(both.o)", "SEARCH_DIR(near) INPUT(far.o)", "GROUP(../vec.o far.o)"):
            self.write("near/implicit.ld", text)
            with self.subTest(text=text):
                self.both("-T", "t.ld", "near/implicit.ld", "m.o")

    def test_implicit_script(self) -> None:
        """A script among the objects that has more than files is another linker's."""
        self.script("*(.none)")
        for text in ("x = 4;", "ENTRY(in_vec) INPUT(vec.o)", "SECTIONS { .x : { *(.x) } }", "EXTERN(in_vec)"):
            self.write("implicit.ld", text)
            done = self.ld("-T", "t.ld", "m.o", "implicit.ld", "-o", "own")
            self.assertEqual(done.returncode, 2, done.stderr)
            self.assertIn("implicit.ld: a script in the place of an object that has", done.stderr)
            done = self.ld("-T", "t.ld", "m.o", "implicit.ld", "-o", "own", env={"LDI_FALLBACK": "ld.bfd"})
            self.assertEqual(done.returncode, 0, done.stderr)
        done = self.ld("-T", "t.ld", "m.o", "m.s")
        self.assertEqual(done.returncode, 2, done.stderr)

    def test_included_commands(self) -> None:
        """Commands of a file that is included."""
        self.write("near/inputs.ld", "INPUT(vec.o) EXTERN(in_sub_mem)\n")
        self.script("*(.none)", "INCLUDE near/inputs.ld\n")
        self.both("-T", "t.ld", "m.o", "libq.a")

    def test_several_scripts(self) -> None:
        """A second -T goes on where the first ends; --defsym and objects stand between them."""
        self.script("*(.none)")
        self.write("one.ld", "ENTRY(_start) MEMORY { ram : ORIGIN = 0x1000, LENGTH = 1M }\n"
                   "SECTIONS { .one : { *vec.o(.text) one_end = .; } >ram }\n")
        self.write("near/two.ld", "two = DEFINED(mid) ? mid : 7;\nSECTIONS { .two : { *(.text) } >ram "
                   ".data : { *(.data .bss) } >ram /DISCARD/ : { *(.note*) } } INPUT(both.o)\n")
        for words in ("-T one.ld -T near/two.ld m.o vec.o", "-T one.ld vec.o --defsym mid=9 -T near/two.ld m.o",
                      "--defsym mid=1 -T one.ld m.o vec.o -T near/two.ld", "-Tnear/two.ld -Tone.ld m.o vec.o",
                      "-L near -T one.ld vec.o -T two.ld --defsym late=two m.o",
                      "-dT none.ld -T one.ld -T near/two.ld m.o",
                      "-dT one.ld -dT t.ld m.o vec.o", "-T one.ld -T one.ld m.o"):
            with self.subTest(words=words):
                self.both(*words.split())
        done = self.ld("-T", "one.ld", "-T", "near/two.ld", "m.o", "-o", "own", "--verbose")
        self.assertRegex(done.stderr, r"near/two\.ld:1: rewritten: .*DEFINED")
        self.write("near/two.ld", "SECTIONS { .two : { *(.text) } }\nbad bad;\n")
        done = self.ld("-T", "one.ld", "-T", "near/two.ld", "m.o", "-o", "own")
        self.assertIn("near/two.ld:2:", done.stderr)

    def test_output(self) -> None:
        """OUTPUT names the image, and -o goes before it."""
        self.script("*(.none)", "OUTPUT(named)")
        self.links("-T", "t.ld", "m.o")
        self.assertTrue((self.folder / "named").exists())
        (self.folder / "named").unlink()
        self.links("-o", "other", "-T", "t.ld", "m.o")
        self.assertFalse((self.folder / "named").exists())

    def test_dependency_file(self) -> None:
        """The scripts, what they include, and all that was opened."""
        self.write("near/more.ld", "y = 1;\n")
        self.write("two.ld", "z = 1;\n")
        self.script("vec.o(.text)", "INCLUDE more.ld\nINPUT(far.o)")
        self.write("implicit.ld", "GROUP(libq.a)")
        words = ["-L", "near", "-T", "t.ld", "-T", "two.ld", "m.o", "implicit.ld", "-u", "in_sub_mem", "-o", "own"]
        self.links(*words, "--dependency-file=own.d")
        self.run_tool("ld.bfd", *words, "--dependency-file=gnu.d")
        own, gnu = (self.prerequisites(name) for name in ("own.d", "gnu.d"))
        theirs = [{"more.ld": "near/more.ld", "./libq.a": "./libq.a"}.get(name, name) for name in dict.fromkeys(gnu)]
        self.assertEqual(sorted(own), sorted(theirs))
        done = self.run_program("make", "-f", "own.d", "-q", "own")
        self.assertEqual(done.returncode, 0, done.stderr)

    def prerequisites(self, name: str) -> list[str]:
        """The files that a rule names."""
        rule = (self.folder / name).read_text(encoding="utf-8").split("\n\n")[0]
        return rule.replace("\\\n", " ").split(":", 1)[1].split()
