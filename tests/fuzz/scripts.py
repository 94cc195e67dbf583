"""Random scripts of GNU ld, with the words of a link."""
from __future__ import annotations

import re
from dataclasses import dataclass, field
from random import Random

from tests.fuzz.objects import ARCHIVE, DEFINED, NAMES

REST = ("*(.text .text.*) *(.rodata .rodata.*) *(.tab*) *(cmds) *(.vectors) *(.init_array .init_array.*) "
        "*(.fini_array .fini_array.*) *(.ramfunc) *(.data .data.*) *(.note.x) *(.empty.*) *(.noinit) *(.bss .bss.*) "
        "*(COMMON)")
SECTIONS = [".text", ".rodata", ".data", ".bss", ".tab", ".ramfunc", ".noinit", ".init_array", ".one", ".two", ".three",
            ".four", "cmds", ".vectors", ".heap", ".stack", ".mid"]
PATTERNS = [".text", ".text.*", ".rodata", ".rodata.*", ".data", ".data.*", ".bss", ".bss.*", "COMMON", ".tab*",
            ".tab.b", ".ramfunc*", ".noinit*", ".init_array.*", ".init_array", ".fini_array*", "cmds", ".vectors",
            ".nothing", ".nothing.*", ".empty.*", ".text.[a-c]*", ".rodata.d?", ".note.x", ".text.e1", ".data.c"]
FILES = ["*", "*", "*", "*", "*", "*a.o", "b.o", "*[a-d].o", "*.o", "a.o", f"*{ARCHIVE}:*", f"{ARCHIVE}:x1.o", ":c.o"]
SYMBOLS = ["sym_1", "sym_2", "sym_3", "sym_4", "provided_1", "provided_2", "end", "_end", "_edata", "mark"]


@dataclass
class Case:
    """A link: the script, the files that it includes, the words before and after the script, the objects."""

    script: str
    before: list[str] = field(default_factory=list)
    after: list[str] = field(default_factory=list)
    objects: list[str] = field(default_factory=list)
    files: dict[str, str] = field(default_factory=dict)

    def words(self, script: str, out: str) -> list[str]:
        """The words of the link."""
        return [*self.before, "-T", script, "-o", out, *self.after, *self.objects]


ONCE = ".once : { *(.gnu.linkonce.*) }"
TABLES = [[".got : { *(.got) }", ".got.plt : { *(.got.plt) }", ONCE], [ONCE, ".got : { *(.got*) }"],
          [".got : { *(.got.plt) *(.got) }", ONCE], [".got : { *(.got .got.plt .data.got) *(.gnu.linkonce.*) }"]]
"""Where a global offset table may be, and sections of one name."""


class Writer:
    """Writes one script."""

    def __init__(self, seed: int, twice: int = 3, with_tables: bool = False) -> None:
        """Of a hundred output sections whose name another one has already, `twice` keep it; `with_tables` places a
        global offset table."""
        self.with_tables = with_tables
        self.random = Random(seed)
        self.names: list[str] = []
        """Output sections so far."""
        self.known: list[str] = []
        """Symbols so far."""
        self.regions: list[str] = []
        self.phdrs = False
        self.twice = twice

    def chance(self, percent: int) -> bool:
        """Whether something happens that does so this often."""
        return self.random.randrange(100) < percent

    def pick(self, *items: str) -> str:
        """One of some texts."""
        return self.random.choice(items)

    # --- expressions ---

    def small(self) -> str:
        """A small number."""
        return self.pick("0", "1", "2", "3", "4", "7", "8", "0x10", "0x18", "0x20", "33", "0x40", "100", "1K", "0x90")

    def power(self) -> str:
        """An alignment."""
        return self.pick("1", "2", "4", "8", "16", "32", "64", "0x100", "CONSTANT(COMMONPAGESIZE)", "0x1000")

    def value(self, depth: int = 2, inside: bool = False) -> str:
        """An expression."""
        kind = self.random.randrange(22)
        if depth == 0 or kind < 3:
            return self.small()
        if kind < 6:
            return "."
        if kind < 9 and self.known:
            return self.random.choice(self.known)
        if kind == 9 and self.names:
            return f"{self.pick('ADDR', 'SIZEOF', 'LOADADDR', 'ALIGNOF', 'SIZEOF')}({self.random.choice(self.names)})"
        if kind == 10 and self.regions:
            return f"{self.pick('ORIGIN', 'LENGTH')}({self.random.choice(self.regions)})"
        if kind == 11:
            return f"ALIGN({self.power()})"
        if kind == 12:
            return f"{self.pick('MAX', 'MIN', 'ALIGN')}({self.value(depth - 1, inside)}, {self.power()})"
        if kind == 13:
            return f"ABSOLUTE({self.value(depth - 1, inside)})"
        if kind == 14:
            name = self.random.choice([*DEFINED, *SYMBOLS])
            return f"(DEFINED({name}) ? {self.value(depth - 1)} : {self.small()})"
        if kind == 15:
            return f"{self.pick('-', '~', '!', '-')}{self.operand(depth - 1, inside)}"
        if kind == 16:
            return f"({self.operand(depth - 1, inside)} ? {self.value(depth - 1, inside)} : {self.small()})"
        if kind == 17:
            return self.pick("CONSTANT(MAXPAGESIZE)", "CONSTANT(COMMONPAGESIZE)", "LOG2CEIL(100)", "(-8 / 2)",
                             "(-9 % 4)", 'SEGMENT_START("text-segment", 0x5000)', "SIZEOF_HEADERS")
        if kind == 18 and self.chance(60):
            return self.random.choice(DEFINED)
        operator = self.pick("+", "+", "+", "-", "-", "*", "&", "|", "/", "%", "<<", ">>", "<", "==", "^", "&&", ">")
        right = self.pick("2", "3", "8") if operator in ("/", "%", "<<", ">>", "*") else self.operand(depth - 1, inside)
        return f"{self.operand(depth - 1, inside)} {operator} {right}"

    def operand(self, depth: int, inside: bool) -> str:
        """An operand, in parentheses where it needs them."""
        text = self.value(depth, inside)
        return f"({text})" if " " in text and not text.startswith("(") else text

    # --- statements ---

    def symbol(self) -> str:
        """A name to assign."""
        return self.random.choice(SYMBOLS)

    def assignment(self, inside: bool = False) -> str:
        """An assignment to a symbol."""
        name, kind = self.symbol(), self.random.randrange(12)
        value = self.value(2, inside)
        if kind < 3:
            text = f"PROVIDE({name} = {value});"
        elif kind == 3:
            text = f"PROVIDE_HIDDEN({name} = {value});"
        elif kind == 4 and name in self.known:
            text = f"{name} {self.pick('+=', '-=', '*=', '|=')} {self.small()};"
        elif kind == 5:
            text = f"{name} = .;"
        else:
            text = f"{name} = {value};"
        if name not in self.known and not text.startswith("PROVIDE"):
            self.known.append(name)
        return text

    def check(self) -> str:
        """An ASSERT, mostly one that holds."""
        value = self.pick("1", "1", ". >= 0", "!0", "SIZEOF_HEADERS > 0")
        return f'ASSERT({value}, "a message"); '

    def dot(self, inside: bool) -> str:
        """An assignment to `.`."""
        if inside:
            return self.pick(f". = ALIGN({self.power()});", f". += {self.small()};", f". = . + {self.small()};",
                             f". = ALIGN({self.power()});", f". = ALIGN({self.power()});", ". = ALIGN(. != 0 ? 8 : 1);",
                             ". = . + 0;", f". = {self.pick('0x80', '0x100', '0x200')};", ". = 0;",
                             f". = ALIGN(., {self.power()}) + 4;", f". = MAX(., {self.small()});")
        return self.pick(f". = ALIGN({self.power()});", f". += {self.small()};", f". = . + {self.small()};",
                         f". = {hex(0x1000 * self.random.randrange(0x402, 0x500))};",
                         f". = ALIGN(., {self.power()}) + 4;",
                         ". = ALIGN(CONSTANT(MAXPAGESIZE)) + (. & (CONSTANT(MAXPAGESIZE) - 1));",
                         f". = ALIGN({self.power()});")

    def pattern(self) -> str:
        """A pattern of sections with its sort."""
        word = self.random.choice(PATTERNS)
        kind = self.random.randrange(30)
        if kind == 0:
            return f"SORT_BY_NAME({word})"
        if kind == 1:
            return f"SORT_BY_ALIGNMENT({word})"
        if kind == 2:
            return f"SORT_BY_INIT_PRIORITY({self.pick('.init_array.*', '.fini_array.*', word)})"
        if kind == 3:
            return f"SORT_BY_NAME(SORT_BY_ALIGNMENT({word}))"
        if kind == 4:
            return f"SORT_BY_ALIGNMENT(SORT_BY_NAME({word}))"
        if kind == 5:
            return f"EXCLUDE_FILE({self.pick('*a.o', '*b.o c.o', '*' + ARCHIVE, '*' + ARCHIVE + ':*', 'a.o')}) {word}"
        if kind == 6:
            return f"SORT_NONE({word})"
        return word

    def taking(self) -> str:
        """An input statement."""
        file = self.random.choice(FILES)
        count = self.random.choice([1, 1, 1, 2, 2, 3])
        text = f"{file}({' '.join(self.pattern() for _ in range(count))})"
        kind = self.random.randrange(16)
        if kind == 0:
            text = f"EXCLUDE_FILE({self.pick('*a.o', '*b.o', '*' + ARCHIVE)}) {text}"
        elif kind == 1:
            text = f"SORT({file})({self.random.choice(PATTERNS)})" if "*" in file and ":" not in file else text
        elif kind == 2:
            text = f"INPUT_SECTION_FLAGS({self.pick('SHF_WRITE', 'SHF_EXECINSTR', 'SHF_ALLOC & !SHF_WRITE')}) {text}"
        return f"KEEP({text})" if self.chance(20) else text

    def data(self) -> str:
        """A data command."""
        word = self.pick("BYTE", "SHORT", "LONG", "QUAD", "SQUAD", "LONG", "BYTE")
        return f"{word}({self.value(2)})"

    def body(self) -> str:
        """The statements of an output section."""
        parts: list[str] = []
        for _ in range(self.random.choice([1, 1, 1, 2, 2, 3, 4, 5])):
            kind = self.random.randrange(20)
            if kind < 11:
                parts.append(self.taking())
            elif kind < 13:
                parts.append(self.assignment(inside=True))
            elif kind < 16:
                parts.append(self.dot(inside=True))
            elif kind < 18:
                parts.append(self.data())
            elif kind == 18:
                parts.append(f"FILL({self.pick('0x90', '0x1234', '0xdeadbeef', '144', '0x112233')})")
            else:
                parts.append(self.check() if self.chance(50) else "CONSTRUCTORS")
        return " ".join(parts)

    def head(self, name: str) -> str:
        """What stands before the brace."""
        text = name
        if self.chance(14):
            text += " " + self.pick(hex(0x1000 * self.random.randrange(0x500, 0x600)), ".", f"ALIGN({self.power()})",
                                    f". + {self.small()}", f"BLOCK({self.power()})",
                                    hex(0x600000 + self.random.randrange(0x100000)))
        if self.chance(4):
            text += f" ({self.pick('NOLOAD', 'NOLOAD', 'INFO', 'COPY', 'DSECT')})"
        text += " :"
        if self.chance(15):
            last = self.names[-1] if self.names else ""
            after = f"LOADADDR({last}) + SIZEOF({last})" if last else "0x300000"
            text += " AT(" + self.pick(hex(0x200000 + self.random.randrange(0x100000)), "0x200000 + 4",
                                       f"ADDR({name}) - 0x1000", after, f"ADDR({name})") + ")"
        if self.chance(12):
            text += f" ALIGN({self.power()})"
        elif self.chance(3):
            text += " ALIGN_WITH_INPUT"
        if self.chance(5):
            text += f" SUBALIGN({self.pick('1', '4', '8', '16', '64', '128')})"
        if self.chance(2):
            text += " " + self.pick("ONLY_IF_RO", "ONLY_IF_RW")
        return text

    def tail(self) -> str:
        """What stands after the brace."""
        text = ""
        if self.regions and self.chance(70):
            text += f" >{self.random.choice(self.regions)}"
        if self.regions and self.chance(25):
            text += f" AT>{self.random.choice(self.regions)}"
        if self.phdrs and self.chance(50):
            text += f" :{self.pick('one', 'two', 'NONE')}" if self.chance(30) else " :one"
        if self.chance(15):
            text += f" ={self.pick('0x90', '0xff00', '144', '0x11223344', '0xabcdef', '0', '(1 + 2)')}"
        return text

    def section(self, body: str = "") -> str:
        """An output section."""
        name = self.random.choice(SECTIONS)
        if name in self.names and self.chance(100 - self.twice):
            name = f".s{len(self.names)}"
        head = self.head(name)
        text = f"{head} {{ {body or self.body()} }}{self.tail()}"
        self.names.append(name)
        return text

    def item(self) -> str:
        """A statement of SECTIONS."""
        kind = self.random.randrange(20)
        if kind < 11:
            return self.section()
        if kind < 14:
            return self.dot(inside=False)
        if kind < 18:
            return self.assignment()
        return self.check()

    # --- the whole ---

    def memory(self) -> str:
        """MEMORY."""
        attributes = [self.pick("", "", " (rx)", " (w!x)", " (rwx)", " (r)", " (!w)", " (xr)") for _ in range(3)]
        self.regions = ["rom", "ram", "ccm"][:self.random.choice([1, 2, 2, 3])]
        bounds = ["ORIGIN = 0x400000, LENGTH = 1M", "ORIGIN = 0x20000000, LENGTH = 1M", "org = 0x10001004, len = 256K"]
        text = " ".join(f"{name}{kind} : {bound}" for name, kind, bound in zip(self.regions, attributes, bounds))
        text = f"MEMORY {{ {text} }}\n"
        if self.chance(10):
            text += f'REGION_ALIAS("other", {self.regions[-1]})\n'
            self.regions.append("other")
        return text

    def segment(self) -> list[str]:
        """DATA_SEGMENT_ALIGN and its like around some sections."""
        result = [". = DATA_SEGMENT_ALIGN(CONSTANT(MAXPAGESIZE), CONSTANT(COMMONPAGESIZE));", self.section()]
        if self.chance(50):
            result.append(". = DATA_SEGMENT_RELRO_END(0, .);")
        result.append(self.section())
        result.append(". = DATA_SEGMENT_END(.);")
        return result

    def script(self) -> str:
        """The script's text."""
        text = "ENTRY(main)\n" if self.chance(30) else ""
        if self.chance(4):
            text += "OUTPUT_FORMAT(elf64-x86-64)\nOUTPUT_ARCH(i386:x86-64)\n"
        if self.chance(35):
            text += self.memory()
        if self.chance(8):
            text += "PHDRS { one PT_LOAD; two PT_LOAD FLAGS(6); }\n"
            self.phdrs = True
        for _ in range(self.random.choice([0, 0, 0, 1, 2])):
            text += self.assignment() + "\n"
        items = [f". = {self.pick('0x400000', '0x400000', '0x1000', '0x400000 + SIZEOF_HEADERS', '0x100004')};"] \
            if not self.regions or self.chance(30) else []
        items += [self.item() for _ in range(self.random.choice([1, 2, 3, 4, 5, 6, 8]))]
        if self.chance(6):
            items += self.segment()
        items.append(self.section(REST) if self.chance(50) else f".rest : {{ {REST} }}{self.tail()}")
        if self.names and self.names[-1] != ".rest":
            self.names.append(".rest")
        if self.with_tables:
            items += [f"{body}{self.tail()}" for body in self.random.choice(TABLES)]
        items += [self.pick(self.dot(False), self.assignment(), self.assignment(), "end = .;", "PROVIDE(end = .);",
                            self.section()) for _ in range(self.random.choice([0, 1, 1, 2, 3]))]
        if self.chance(5):
            items.append("/DISCARD/ : { *(.comment) *(.note.*) }")
        text += "SECTIONS {\n  " + "\n  ".join(items) + "\n}\n"
        for _ in range(self.random.choice([0, 0, 0, 1, 2])):
            text += self.pick(self.assignment(), self.check()) + "\n"
        return text


def case(seed: int, collects: bool = False, twice: int = 3, with_tables: bool = False) -> Case:
    """The case of a seed, with --gc-sections if it collects; `twice` is that of Writer; `with_tables` places a global
    offset table."""
    writer = Writer(seed, twice, with_tables)
    random = writer.random
    count = random.choice([1, 2, 2, 3, 4, len(NAMES)])
    objects = random.sample(NAMES, count)
    if "a.o" not in objects and writer.chance(80):
        objects.insert(0, "a.o")
    if "a.o" in objects and "b.o" not in objects:
        objects.append("b.o")
    result = Case(writer.script(), objects=objects)
    if collects:
        result.before.append("--gc-sections")
    if writer.chance(20):
        result.objects += random.choice([["--whole-archive", ARCHIVE], ["-u", "lib_one", ARCHIVE]])
    if writer.chance(6):
        result.before.append(f"--defsym={random.choice(SYMBOLS)}={writer.small()}")
    if writer.chance(4):
        result.after.append(f"--defsym={random.choice(SYMBOLS)}={writer.small()}")
    if writer.chance(5):
        result.before += ["-z", f"max-page-size={random.choice(['0x1000', '0x200000', '0x4000'])}"]
    if writer.chance(3):
        result.before += ["-z", f"common-page-size={random.choice(['0x1000', '0x2000', '0x800'])}"]
    if writer.chance(6):
        lines = result.script.split("\n")
        at = next((i for i, line in enumerate(lines) if line.startswith("SECTIONS")), 0)
        if at + 3 < len(lines):
            result.files["inner.ld"] = lines[at + 1] + "\n"
            lines[at + 1] = "INCLUDE inner.ld"
            result.script = "\n".join(lines)
    return result


def without_rest(one: Case, seed: int) -> Case:
    """A case with orphans: some of the patterns that take all are left out."""
    random = Random(seed)
    for name in ("*(.data .data.*)", "*(.bss .bss.*)", "*(.tab*)", "*(cmds)", "*(.text .text.*)",
                 "*(.rodata .rodata.*)", "*(COMMON)", "*(.note.x)", "*(.vectors)", "*(.ramfunc)", "*(.noinit)"):
        if random.random() < 0.3:
            one.script = one.script.replace(name, "")
    return one


def with_frames(one: Case, seed: int) -> Case:
    """A case whose script places `.eh_frame` and stabs, or leaves them to be orphans."""
    random = Random(f"{seed} frames")
    frames = random.choice(["", "", ".eh_frame : { KEEP(*(.eh_frame)) }",
                            ".eh_frame : { *(.eh_frame) frames_end = .; }",
                            ".eh_frame : ALIGN(8) { *(.eh_frame) LONG(0) }", ".data : { *(.eh_frame) }",
                            ".eh_frame : { *(.eh_frame .gcc_except_table) }"])
    stabs = random.choice(["", "", ".stab : { *(.stab) BYTE(0) } .stabstr : { *(.stabstr) BYTE(0) }",
                           ".stab 0 : { *(.stab) } .stabstr 0 : { *(.stabstr) }",
                           ".stab : { stab = .; *(.stab); stab_end = .; LONG(stab_end) }"])
    gone = random.choice(["", " /DISCARD/ : { *(.gone) }", " .gone : { *(.gone) }"])
    other = Random(f"{seed} table of frames")
    if other.randrange(2):
        one.before += ["--eh-frame-hdr"]
        frames += other.choice(["", " .eh_frame_hdr : { *(.eh_frame_hdr) }",
                                " .eh_frame_hdr : { KEEP(*(.eh_frame_hdr*)) }",
                                " .table : ALIGN(16) { LONG(7) *(.eh_frame_hdr) table_end = .; }"])
        gone += other.choice(["", "", "", "", "", " /DISCARD/ : { *(.eh_frame_hdr) }"])
    tail = " >rom" if re.search(r"^  .*} >rom", one.script, flags=re.M) else ""
    new = "".join(f"  {section}{tail}\n" for section in re.findall(r"\.\w+ .*?{.*?}", f"{frames} {stabs}"))
    one.script = re.sub(r"^SECTIONS {\n(.*\n)", lambda found: found[0] + new, one.script, count=1, flags=re.M)
    one.script = re.sub(r"\n}\n", lambda found: f"\n {gone}\n}}\n", one.script, count=1)
    return one


def with_options(one: Case, seed: int) -> Case:
    """A case with options that a layout goes by."""
    random = Random(seed)
    address = hex(random.randrange(0x800000, 0x900000, random.choice([1, 0x10, 0x1000])))
    section = random.choice([".text", ".data", ".bss", ".rodata", ".new", "cmds"])
    one.before += random.choice([
        ["--sort-section=name"], ["--sort-section=alignment"], [f"-Ttext={address}"], [f"-Tdata={address}"],
        [f"-Tbss={address}"], [f"--section-start={section}={address}"], ["-n"], ["-N"], ["--orphan-handling=discard"],
        ["-znoseparate-code"], ["-znorelro"], [f"-Ttext-segment={address}"]])
    return one


def with_more_options(one: Case, seed: int) -> Case:
    """A case with such options, or with those for names, orphans and common blocks."""
    random = Random(f"{seed} options")
    if random.randrange(2):
        return with_options(one, seed)
    one.before += random.choice([
        ["--sort-common"], ["--sort-common=ascending"], ["--unique"], ["--unique=.data*"], ["--unique=.text.a1"],
        ["--wrap=helper"], ["--wrap", "main", "--defsym=__wrap_main=4"], ["--sort-section=name", "--sort-common"]])
    return one


def with_insert(one: Case, seed: int) -> Case:
    """A case with sections that another script inserts."""
    random = Random(f"{seed} insert")
    names = re.findall(r"^  (\.[a-z0-9]+) .*{", one.script, flags=re.M) or [".rest"]
    place = random.choice(["AFTER", "BEFORE"])
    body = random.choice(["*(.vectors) inserted = .;", "*(.init_array*) . = ALIGN(16);", "LONG(0x11) *(.text.b1)",
                          "*(.data.*)", "KEEP(*(cmds)) end_of_new = .;"])
    more = random.choice(["", "marked = .; ", ". = . + 16; ", "before_new = 5; "])
    one.files["insert.ld"] = f"SECTIONS {{ {more}.new : {{ {body} }} }} INSERT {place} {random.choice(names)};\n"
    one.before += ["-T", "insert.ld"]
    return one
