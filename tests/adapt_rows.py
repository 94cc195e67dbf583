"""The constructs of GNU ld that the profile does not have, each in a small script.

Each row: its name, the script, what the report says in all ("d" dropped, "r" rewritten, "c" changed, "l" left; what
a row does not list may not come), and what is known: `k` the objects are given to `ldi-adapt`, `s=e` a --defsym.
`REST` stands for statements that take all that is not taken yet. Of each row without `l` GNU ld links the script and
`ldi` the adapted one, over the same objects; `!` before a row's last word says that a difference is expected.
"""
from __future__ import annotations

from dataclasses import dataclass

REST = (".rest : { *(.text .text.*) *(.rodata .rodata.*) *(.tab*) *(.init_array .init_array.*) *(.data .data.*) "
        "*(.bss .bss.*) *(COMMON) }")


@dataclass(frozen=True)
class Row:
    """A row of the table."""

    name: str
    script: str
    kinds: str
    known: bool = False
    defsyms: tuple[tuple[str, str], ...] = ()
    different: tuple[str, ...] = ()
    """Beginnings of the differences that `changed` announces."""

    def text(self) -> str:
        """The script. Where the objects are given it has an entry: an image without one differs from GNU ld's."""
        script = self.script.replace("REST", REST)
        script = script if "SECTIONS" in script else f"SECTIONS {{ . = 0x400000; {script} }}"
        return f"ENTRY(_start) {script}" if self.known and "ENTRY" not in script else script


def _row(name: str, script: str, kinds: str = "r", **more: object) -> Row:
    return Row(name, script, kinds, **more)  # type: ignore[arg-type]


TAIL = "_end = .; end = .; provided = 1; __stack = 2;"
COMMANDS = [
    _row("formats", 'OUTPUT_FORMAT("elf64-x86-64", "elf64-x86-64", "elf64-x86-64") OUTPUT_ARCH(i386:x86-64) '
         "TARGET(elf64-x86-64) SECTIONS { . = 0x1000; REST " + TAIL + " }", "d"),
    _row("SEARCH_DIR", 'SEARCH_DIR("/lib"); SEARCH_DIR("=/usr/lib") OUTPUT(x.out) SECTIONS { REST ' + TAIL + " }", "d"),
    _row("objects that are given", "SECTIONS { REST " + TAIL + " }", ""),
    _row("ENTRY in SECTIONS", "ENTRY(main) REST " + TAIL, "r"),
    _row("two ENTRYs", "ENTRY(main) ENTRY(_start) SECTIONS { REST " + TAIL + " }", "d"),
    _row("ENTRY in quotes", 'ENTRY("_start") SECTIONS { REST ' + TAIL + " }", "r"),
    _row("two SECTIONS", "SECTIONS { . = 0x1000; .text : { *(.text) } } x = 3; SECTIONS { REST " + TAIL + " }", "r"),
    _row("EXTERN", "EXTERN(main) EXTERN(provided helper) SECTIONS { REST PROVIDE(provided = 4); _end = .; end = .; "
         "__stack = 1; }", "cr"),
    _row("PHDRS", "PHDRS { text PT_LOAD FLAGS(5); data PT_LOAD; } SECTIONS { . = 0x1000; .text : { *(.text) } :text "
         ".more : { *(.rodata) } :text :data =0x90 REST :data " + TAIL + " }", "c"),
    _row("NOCROSSREFS", "NOCROSSREFS(.text .rest) NOCROSSREFS_TO(.a .b) FORCE_COMMON_ALLOCATION SECTIONS { REST "
         + TAIL + " }", "d"),
    _row("VERSION", "SECTIONS { REST " + TAIL + " } VERSION { V1 { global: a; local: *; }; }", "d"),
    _row("LD_FEATURE", 'LD_FEATURE("SANE_EXPR") SECTIONS { . = 0x1000; .text : { *(.text) a = 3; } b = a + 4; REST '
         + TAIL + " }", "r"),
    _row("HIDDEN", "HIDDEN(a = 5); REST PROVIDE_HIDDEN(provided = .); PROVIDE(_end = .); PROVIDE_HIDDEN(end = 4); "
         "PROVIDE(__stack = 3);", "r"),
    _row("REGION_ALIAS", 'MEMORY { ram : ORIGIN = 0x1000, LENGTH = 1M } REGION_ALIAS("all", ram); SECTIONS { REST >all '
         + TAIL + " s = ORIGIN(all) + LENGTH(all); }", "r"),
    _row("MEMORY after SECTIONS", "SECTIONS { REST >ram " + TAIL + " } MEMORY { ram : ORIGIN = 0x1000, LENGTH = 1M }"),
    _row("two MEMORYs", "MEMORY { rom : ORIGIN = 0x1000, LENGTH = 4K } MEMORY { ram : ORIGIN = 0x9000, LENGTH = 1M } "
         "SECTIONS { .text : { *(.text) } >rom REST >ram " + TAIL + " }"),
]
MEMORY = [
    _row("attributes and short words", "MEMORY { rom (rx!w) : org = 0x1000, l = 4K, ram (wa) : o = 0x8000, len = 1M } "
         "SECTIONS { .text : { *(.text) } >rom REST >ram " + TAIL + " }", "dr"),
    _row("regions by attributes", "MEMORY { rom (rx) : ORIGIN = 0x1000, LENGTH = 4K ram (w) : ORIGIN = 0x8000, LENGTH "
         "= 1M } SECTIONS { .text : { *(.text) } .ro : { *(.rodata .rodata.*) } .data : { *(.data .data.*) } "
         "REST " + TAIL + " }", "dr", known=True),
    _row("numbers", "MEMORY { ram : ORIGIN = 10h, LENGTH = 1m } SECTIONS { . = 0FFH; a = $10; b = 17o; c = 101b; d1 = "
         "12d; e = 4k; f = 08; REST >ram " + TAIL + " }", "r"),
    _row("GNU ld's own sections", ".b : { BYTE(1) } .got : { a = .; *(.got) b = .; } .c : { BYTE(2) *(.got.plt "
         ".igot*) } .d : ALIGN(2) { c = .; *(.rela*) } .e : { BYTE(3) *(.got) } .empty : { *(.empty) } REST " + TAIL),
    _row("GNU ld's own sections at an address", ". = 3; .b . : { BYTE(1) *(.got .rel*) } .c : { BYTE(2) *(.got.plt) } "
         "REST " + TAIL, known=True),
    _row("GNU ld's own sections alone", ".b : { BYTE(1) } .got : { *(.got .got.plt) } a = .; .c : { BYTE(1) *(.rel*) } "
         "REST " + TAIL, known=True),
    _row("GNU ld's own sections, loaded elsewhere", "MEMORY { rom : ORIGIN = 0x1001, LENGTH = 4K ram : ORIGIN = "
         "0x8001, LENGTH = 1M } SECTIONS { .b : { BYTE(1) } >ram AT>rom .got : { BYTE(2) *(.got*) } >ram AT>rom .c : { "
         "BYTE(3) } >ram REST >ram " + TAIL + " }", known=True),
    _row("GNU ld's own sections beside others", ".b : { BYTE(1) } .d : { *(.data.c) *(.got) } .e : { *(.rodata.c) "
         "*(.got.plt) a = .; } .f : { BYTE(2) } .rela : { *(.rela.*) } b = .; REST " + TAIL),
    _row("AT> goes on", "MEMORY { rom : ORIGIN = 0x1001, LENGTH = 4K ram : ORIGIN = 0x8000, LENGTH = 1M } SECTIONS { "
         ".text : { *(.text) } >rom .data : { *(.data) } >ram AT>rom .more : { *(.data.*) } >ram a = LOADADDR(.data); "
         "b = LOADADDR(.more); .tail : { *(.rodata) } >rom REST >ram " + TAIL + " }", "r", known=True),
    _row("ALIGN_WITH_INPUT", "MEMORY { rom : ORIGIN = 0x1001, LENGTH = 4K ram : ORIGIN = 0x8003, LENGTH = 1M } "
         "SECTIONS { .text : { *(.text) } >rom .data : ALIGN_WITH_INPUT { *(.data) } >ram AT>rom .ro : "
         "ALIGN_WITH_INPUT { *(.rodata) } >ram AT>rom a = LOADADDR(.data); b = LOADADDR(.ro); REST >ram AT>ram " + TAIL
         + " }", "r", known=True),
    _row("`.` after ALIGN_WITH_INPUT",
         "MEMORY { rom : ORIGIN = 0x1001, LENGTH = 4K ram : ORIGIN = 0x8003, LENGTH = 1M } "
         "SECTIONS { .text : { *(.text) } >rom .data : ALIGN_WITH_INPUT { *(.data) } >ram AT>rom after = .; "
         ". = ALIGN(8); then = .; REST >ram AT>ram " + TAIL + " }", "r", known=True),
    _row("AT> of the same region", "MEMORY { ram : ORIGIN = 0x8003, LENGTH = 1M } SECTIONS { .b : { *(.bss) } >ram "
         "AT>ram .heap : { . += 0x20; } >ram AT>ram .d : { *(.data) } >ram a = LOADADDR(.b); b = LOADADDR(.d); "
         "REST >ram " + TAIL + " }", "r"),
    _row("`.` around AT>r", "MEMORY { rom : ORIGIN = 0x1001, LENGTH = 4K ram : ORIGIN = 0x8003, LENGTH = 1M } SECTIONS "
         "{ .text : { *(.text) } >rom . = 0x8100; .data . : { *(.data) } >ram AT>rom after = .; .ro ALIGN(64) : "
         "ALIGN_WITH_INPUT { *(.rodata) } >ram AT>rom last = .; a = LOADADDR(.data); b = LOADADDR(.ro); REST >ram "
         "AT>ram " + TAIL + " }", "r", known=True),
    _row("regions before MEMORY", "top = ORIGIN(ram) + LENGTH(ram); low = top - 16; MEMORY { rom : ORIGIN = 0x1000, "
         "LENGTH = 4K ram : ORIGIN = 0x8000, LENGTH = 1M } SECTIONS { .text : { *(.text) } >rom a = low; REST >ram "
         + TAIL + " }", "r"),
    _row("regions before MEMORY after SECTIONS", "top = ORIGIN(ram); SECTIONS { . = 0x1000; a = top + 1; .text : { "
         "*(.text) } >ram REST >ram " + TAIL + " } MEMORY { ram : ORIGIN = 0x8000, LENGTH = 1M }", "r"),
    _row("AT>r of one's own region", "MEMORY { rom : ORIGIN = 0x1000, LENGTH = 4K ram : ORIGIN = 0x8000, LENGTH = 1M } "
         "SECTIONS { .text : { *(.text) } >ram AT>rom .b : { *(.bss) } >ram AT>ram .heap : { . += 64; } >ram AT>ram "
         ".data : { *(.data) } >ram AT>ram .none : { *(.none) } >ram REST >ram " + TAIL + " }", "r", known=True),
    _row("AT> of the same region with an address", "MEMORY { ram : ORIGIN = 0x8003, LENGTH = 1M } SECTIONS { .a : { "
         "*(.text) } >ram AT>ram .d 0x9000 : { *(.data) } >ram AT>ram .e . : ALIGN(32) { *(.rodata) } >ram AT>ram a = "
         "LOADADDR(.d); b = LOADADDR(.e); REST >ram " + TAIL + " }", "r"),
    _row("AT> alone", "MEMORY { rom : ORIGIN = 0x1000, LENGTH = 1M } SECTIONS { REST AT>rom " + TAIL + " }", "r"),
    _row("DEFINED in MEMORY", "MEMORY { ram : ORIGIN = DEFINED(base) ? base : 0x1000, LENGTH = size } SECTIONS { REST "
         ">ram " + TAIL + " } size = 1M;", "r", defsyms=(("base", "0x3000"),)),
]
HEADS = [
    _row("two of one name", ".text : { *(.text) } . = 0x410000; .text : { *(.text.*) a = .; } b = SIZEOF(.text); REST "
         + TAIL, "c"),
    _row("NOLOAD of gaps",
         "REST .heap (NOLOAD) : { low = .; . += 64; . = ALIGN(32); } .stack (NOLOAD) : { . += 16; high "
         "= .; } " + TAIL, "d"),
    _row("NOLOAD of gaps and NOBITS", ".b (NOLOAD) : { . = ALIGN(32); *(.bss) . += 8; } REST " + TAIL, "d", known=True),
    _row("NOLOAD", ".nothing (NOLOAD) : { *(.bss) *(COMMON) } REST " + TAIL, "d", known=True),
    _row("types", ".got.plt (INFO) : { *(.got.plt) } .x (COPY) : { *(.xx) } .y (DSECT) : { *(.yy) } .z (OVERLAY) : { "
         "*(.zz) } .w () : { *(.ww) } REST " + TAIL, "d", known=True),
    _row("ALIGN and an address", ".text 0x400003 : ALIGN(64) { *(.text) } REST " + TAIL, "r"),
    _row("ALIGN of an empty section", ".e : ALIGN(4096) { *(.none) } a = .; .f : ALIGN(64) { k = .; } b = .; REST "
         + TAIL, "rd", known=True),
    _row("the address of an empty section", ".t : { *(.text) } .none 0x401000 : { *(.none) } .no : { *(.no) } e = .; "
         ".d : { *(.data) } f = .; .e . : { *(.none) } g = .; REST " + TAIL, "d", known=True),
    _row("input sections without bytes", ".t : { *(.text) } .e : ALIGN(4096) { *c.o(.data) } a = .; .f 0x410000 : { "
         "PROVIDE(idle = .); *c.o(.data) } b = .; .g : { *(.data) } REST " + TAIL, "rd", known=True),
    _row("SUBALIGN", ".t : SUBALIGN(8) { *(.data) } REST " + TAIL, "c", different=("section", "symbol", "load")),
    _row("ONLY_IF_RO", ".x : ONLY_IF_RO { *(.rodata) } .x : ONLY_IF_RW { *(.rodata) q = .; } .y : ONLY_IF_RO { "
         "*(.data) } .y : ONLY_IF_RW { *(.data) r = .; } REST " + TAIL, "rd", known=True),
    _row("assignments where ONLY_IF_RW does not hold", ".x : ONLY_IF_RW { *(.rodata) q = 0x30; v = . + 4; q += 1; } "
         "a = ABSOLUTE(q + 2); .y : { *(.data) QUAD(q) } b = ABSOLUTE(v); REST " + TAIL, "rd", known=True),
    _row("AT(ADDR(.own))", ".text : AT(ADDR(.text) - 0x300000) { *(.text) } .data : AT(ADDR(.data) - 0x300000) { "
         "*(.data) } .r : AT(ADDR(.r) - 0x200000) { *(.rodata) } a = LOADADDR(.data); b = LOADADDR(.r); REST " + TAIL),
    _row("AT(ABSOLUTE(ADDR(.own)))", "off = 0x300000; .text : AT(ABSOLUTE(ADDR(.text) - off)) { *(.text) } "
         ".data 0x500000 : AT(ADDR(.data) - off + 0x1000) { *(.data) } REST " + TAIL),
    _row("an address keeps the distance", ".text 0x400000 : AT(0x100000) { *(.text) } .data 0x500000 : { *(.data) } "
         "a = LOADADDR(.data); REST " + TAIL),
    _row("AT after ALIGN", ".text : AT(0x1000) ALIGN(32) { *(.text) } REST " + TAIL, ""),
    _row("PIC of heads", ".text BLOCK(0x1000) : { *(.text) } .data ALIGN(CONSTANT(MAXPAGESIZE)) : { *(.data) } REST "
         + TAIL),
    _row("commas", ".text : { *(.text) }, .data : { *(.data) } , REST " + TAIL, "r"),
    _row("names in quotes", '".text" : { *(".text") "*b.o"(.data) } REST "a" = SIZEOF(".text"); ' + TAIL, "r"),
    _row("DISCARD", "/DISCARD/ : { *(SORT(.none)) } =0x90 REST " + TAIL, "dr"),
    _row("debug and comment", "REST " + TAIL + " .comment 0 : { *(.comment) } .debug_info 0 : { *(.debug_info "
         ".gnu.linkonce.wi.*) } .stab 0 : { *(.stab) } /DISCARD/ : { *(.note.*) }", "d"),
    _row("`.` after debug sections", ".debug_info 0 : { *(.debug_info) } where = .; . = 0x400000; REST " + TAIL, "dc",
         different=("symbol where",)),
    _row("comment in the middle", ".text : { *(.text) } .comment : { *(.comment) } .data : { *(.data) } REST " + TAIL,
         "d"),
]
INPUTS = [
    _row("a file alone", ".t : { KEEP(*b.o(.text)) } REST " + TAIL, ""),
    _row("the first file by its name", ".t : { a.o(.text) b.o(.data) } REST " + TAIL, "", known=True),
    _row("another file by its name", ".t : { b.o(.text) } REST " + TAIL, "c", known=True, different=("symbol",)),
    _row("all of a file", ".t : { *b.o } REST " + TAIL, "cr", known=True, different=("section", "symbol")),
    _row("all sections", ".t : { *(*) } " + TAIL, "cr", different=("section", "symbol")),
    _row("commas in lists", ".t : { *(.data.*, .text) } REST " + TAIL),
    _row(":file and lib:file", ".t : { :*b.o(.text) *nolib.a:x.o(.text) } REST " + TAIL, "rc"),
    _row("other characters", ".t : { *(.tab+*) *x+y.o(.a~b) } REST " + TAIL),
    _row("sets", ".t : { *(.text.[!b]1) *(.rodata.[^c]) } REST " + TAIL),
    _row("several sorts", ".t : { *(SORT(.text.*) SORT(.rodata.*)) } REST " + TAIL),
    _row("several sorts by alignment", ".t : { *(SORT_BY_ALIGNMENT(.text.*) SORT_BY_ALIGNMENT(.text)) } REST " + TAIL),
    _row("a sort beside none", ".t : { *(.data SORT(.none.*)) } REST " + TAIL, "r", known=True),
    _row("nested sorts", ".t : { *(SORT_BY_NAME(SORT_BY_ALIGNMENT(.text.*))) } .u : { "
         "*(SORT_BY_ALIGNMENT(SORT_BY_NAME(.rodata.*))) *(SORT(SORT(.tab*))) } REST " + TAIL, "r", known=True),
    _row("SORT_NONE", ".t : { *(SORT_NONE(.text)) *(SORT_NONE(.data) .data.*) } REST " + TAIL),
    _row("SORT_BY_INIT_PRIORITY", ".i : { KEEP(*(SORT_BY_INIT_PRIORITY(.init_array.*))) "
         "*(SORT_BY_INIT_PRIORITY(.init_array.*) SORT_BY_INIT_PRIORITY(.ctors.*)) } REST " + TAIL, "r", known=True),
    _row("SORT of files", ".t : { SORT(*)(.text) } REST " + TAIL, "r", known=True),
    _row("EXCLUDE_FILE in a sort", ".t : { *(SORT(EXCLUDE_FILE(*b.o) .text)) } REST " + TAIL),
    _row("EXCLUDE_FILE before", ".t : { EXCLUDE_FILE(*b.o) *(.text .data) *(EXCLUDE_FILE(*a.o, *c.o) .text .data) } "
         "REST " + TAIL),
    _row("INPUT_SECTION_FLAGS", ".t : { INPUT_SECTION_FLAGS(SHF_EXECINSTR & !SHF_WRITE) *(.text*) } REST " + TAIL,
         "r", known=True),
    _row("CONSTRUCTORS", ".t : { *(.text) CONSTRUCTORS SORT(CONSTRUCTORS) } REST " + TAIL, "d"),
    _row("CREATE_OBJECT_SYMBOLS", ".t : { CREATE_OBJECT_SYMBOLS *(.text) } REST " + TAIL, "c", different=("symbol",)),
]
DATA = [
    _row("SQUAD, BYTE with symbols", "a = 5; .d : { SQUAD(-1) BYTE(a) QUAD(. + ADDR(.d)) LONG(MAX(a, 3)) } REST "
         + TAIL),
    _row("FILL", ".d : { FILL(0x90) *(.text) . = ALIGN(32); } REST " + TAIL),
    _row("fills", ".d : { *(.text) . = ALIGN(32); } =144 .e : { *(.text.*) } =0x901 .f : { BYTE(1) } =(1+2) .g : { "
         "BYTE(2) } =0x112233441122334411223344 REST " + TAIL),
]
DOT = [
    _row("`.` before SECTIONS", ". = 0x2000; x = .; SECTIONS { REST " + TAIL + " }"),
    _row("`.` after SECTIONS", "SECTIONS { . = 0x2000; REST } end = .; _end = . + 4; provided = 1; __stack = 2; "
         'ASSERT(. > 0x2000, "low")'),
    _row("ASSERT with `.`", 'REST ASSERT(. <= 0x500000, "full") ' + TAIL),
    _row("`. = ASSERT`", 'SECTIONS { . = 0x1000; REST ' + TAIL + ' } . = ASSERT(_end > 0x1000, "m"); x = ASSERT(3, '
         '"n");', "r"),
    _row("`. = ASSERT` and then `.`", '. = ASSERT(SIZEOF(.rest) > 3, "m"); x = .; . = 0x400000; REST ' + TAIL),
    _row("compound assignments", "a = 3; a += 4; a -= 1; b = a; a *= 2; a /= 3; a <<= 2; a >>= 1; a &= 14; a |= 1; "
         ". -= 0x1000; . |= 0x10; . *= 1; REST " + TAIL),
    _row("assigned twice", "a = .; b = a + 1; REST a = . + 2; c = a; " + TAIL),
    _row("assigned to itself in a section", "a = 0x20; .t : { *(.text) a = a; } b = a; REST " + TAIL),
    _row("assigned twice, unused", "a = 1; REST a = 2; " + TAIL, "d"),
    _row("commas after assignments", "a = 1, b = 2, REST " + TAIL),
    _row("`. = symbol + n`", ".t : { *(.text) mark = .; . = mark + 0x20; *(.text.*) at = .; . = at + 3 + 4; x = .; } "
         "REST " + TAIL),
    _row("`. = symbol + n` at the start", ".t : { begin = .; . = begin + 0x40; *(.text) . = begin + (1 << 8); x = .; } "
         "REST " + TAIL),
    _row("`. = n` counts", ".t : { *(.text) . = 0x40; x = .; } REST " + TAIL, ""),
    _row("`. = absolute symbol`", "n = 0x80; .t : { *(.text) . = n; x = .; . = ABSOLUTE(.) + 8; y = .; } REST " + TAIL),
    _row("`. = ALIGN(cond)`", ".t : { *(.text) . = ALIGN(. != 0 ? 8 : 1); x = .; } .e : { *(.none) "
         ". = ALIGN(. != 0 ? 8 : 1); } REST " + TAIL),
    _row("`. = ALIGN(., n)`", ".t : ALIGN(64) { *(.text) . = ALIGN(., 32); x = .; . = ALIGN(x + 1, 8); y = .; } REST "
         + TAIL),
    _row("sums of `.`", "a = 2; .t : { *(.text) . = a + .; . = . + a + 4; x = .; . = . + 8 - 4; y = .; } REST " + TAIL),
    _row("`. = cond`", ".t : { *(.text) . = . > 0x1000 ? . : 0x60; x = .; . = (. <= 0x100) ? 0x100 : .; y = .; } REST "
         + TAIL),
    _row("ALIGN plus n", ".t : { *(.text) . = ALIGN(8) + 4; x = .; } REST " + TAIL),
    _row("compound in a section", ".t : { *(.text) . += 4; . |= 0x30; x = .; } REST " + TAIL),
    _row("ASSERT in a section", '.t : { *(.text) ASSERT(. <= 0x40, "long"); ASSERT(. > 1, "short"), } REST ' + TAIL),
]
VALUES = [
    _row("numbers in a section", ".t : { *(.text) a = 0x10; b = a + 4; c = a - b; n = SIZEOF(.t); z = 0; } d1 = a; "
         "REST " + TAIL),
    _row("symbols of other sections", "k = 0x20; .t : { *(.text) m = .; } .u : { *(.data) a = m; b = m + 1; c = m - .; "
         "x = k; y = k + 4; z = . - m; w = k < 3; } REST " + TAIL),
    _row("distances", ".t : { QUAD(1) *(.text) m = .; } a = m & 7; b = (m + m) / 2; c = -m; d1 = ~m; e1 = !m; "
         "f = m ? 1 : 2; g = ADDR(.t) ? 1 : 2; h = m * 2; i = m << 1; j = m % 16; kk = m && 1; la = SIZEOF(.t) < m; "
         "lb = m - SIZEOF(.t); lc = m & SIZEOF(.t); REST " + TAIL),
    _row("distances in a section", ".t : { QUAD(1) a = . & ~3; b = (. + 15) & ~15; c = -.; d1 = ~.; e1 = . * 2; "
         "f = . ? 1 : 2; g = . - 4 < 8; h = 100 - .; *(.text) } REST " + TAIL),
    _row("MAX and MIN", "a = MAX(3, 4); b = MIN(., 0x10); .t : { *(.text) c = MAX(., a); d1 = MIN(. + 1, .); } REST "
         + TAIL),
    _row("ABSOLUTE", ".t : { *(.text) a = ABSOLUTE(.); b = ABSOLUTE(0x30); c = ABSOLUTE(a + 1); } d1 = ABSOLUTE(a); "
         "REST " + TAIL),
    _row("CONSTANT, SEGMENT_START", "a = CONSTANT(MAXPAGESIZE); b = CONSTANT(COMMONPAGESIZE) - 1; c = "
         'SEGMENT_START("text-segment", 0x400000); . = SEGMENT_START("data-segment", .); REST ' + TAIL),
    _row("DATA_SEGMENT without RELRO", ".t : { *(.text) } . = DATA_SEGMENT_ALIGN(0x1000, 0x1000); REST . = "
         "DATA_SEGMENT_END(.); " + TAIL, "cr", different=("section", "symbol", "load")),
    _row("DATA_SEGMENT with RELRO", ".t : { *(.text) } . = DATA_SEGMENT_ALIGN(0x1000, 0x1000); .d : { *(.data) } . = "
         "DATA_SEGMENT_RELRO_END(0, .); REST . = DATA_SEGMENT_END(.); " + TAIL, "cr",
         different=("section", "symbol", "load")),
    _row("NEXT, BLOCK, LOG2CEIL", ". = NEXT(0x2000); a = BLOCK(64); b = LOG2CEIL(100); .t : { *(.text) c = NEXT(32); } "
         "REST " + TAIL),
    _row("ALIGNOF", "REST a = ALIGNOF(.rest); " + TAIL, "r", known=True),
    _row("plus", "b = +4; c = 3 + +b; REST " + TAIL),
    _row("a-b is a difference", "a = 9; b = 4; c = a-b; d1 = .-a; e1 = (a)-b; f = a-1; REST " + TAIL),
    _row("division has a sign", "a = -8 / 2; b = (0 - 9) % 4; REST " + TAIL),
    _row("comments of #", "a = 1; # a comment\n b = 2; REST " + TAIL, "r"),
    _row("an object's absolute symbol", "a = absolute + 1; . = absolute; REST " + TAIL, "r", known=True),
    _row("a number as a name", "ab = 7; a = ab; REST " + TAIL),
    _row("an object's symbol", "a = main; REST " + TAIL, "l"),
    _row("DEFINED", "a = DEFINED(main) ? 1 : 2; b = DEFINED(nothing) ? nothing : 3; c = DEFINED(b) ? b : 4; d1 = "
         "DEFINED(size) ? size : 5; size = DEFINED(size) ? size : 6; REST " + TAIL, "r", known=True,
         defsyms=(("size", "0x77"),)),
    _row("DEFINED of itself", "provided = DEFINED(provided) ? provided : 0x55; REST _end = .; end = .; __stack = 2;",
         "cr"),
    _row("DEFINED in ASSERT", 'ASSERT(DEFINED(main) && 1, "no main") REST ' + TAIL),
    _row("--defsym", "a = size + 1; REST " + TAIL, "r", defsyms=(("size", "0x40"),)),
    _row("used before", "x = y + 1; z = SIZEOF(.data) + LOADADDR(.data); .t : { *(.text) q = w; r = SIZEOF(.t); s = "
         "ADDR(.t); } y = .; w = 0x30; .data : { *(.data) } REST " + TAIL),
    _row("used before, in `.`", ". = base; REST " + TAIL + " base = 0x3000 + more; more = 0x20;"),
    _row("used before SECTIONS' end", "SECTIONS { . = origin; .t : { *(.text) . = . + pad; } REST " + TAIL + " } "
         "origin = 0x5000; pad = 16;"),
    _row("SIZEOF before, in `.`", ". = . + SIZEOF(.rest); REST " + TAIL, "l"),
    _row("PROVIDE that the script uses", "PROVIDE(gap = 0x30); . = . + gap; REST " + TAIL),
    _row("PROVIDE that nothing uses", "PROVIDE(idle = nowhere + 1); REST " + TAIL, "d", known=True),
    _row("PROVIDE twice", "PROVIDE(provided = 3); PROVIDE(provided = 4); REST _end = .; end = .; __stack = 2;", "d"),
    _row("PROVIDE and an assignment", "PROVIDE(provided = 3); provided = 4; REST _end = .; end = .; __stack = 2;", "d"),
    _row("many signs", 'REST ' + TAIL + " " + " ".join(f'ASSERT((_end > {n}) && (_end != {n}), "m")'
                                                      for n in range(12)), ""),
    _row("SIZEOF_HEADERS", ". = 0x400000 + SIZEOF_HEADERS; a = SIZEOF_HEADERS; REST " + TAIL, "cr",
         different=("section .rest 0x40", "symbol", "load")),
    _row("SIZEOF_HEADERS with PHDRS", "PHDRS { t PT_LOAD FILEHDR PHDRS; d PT_LOAD; } SECTIONS { . = 0x400000 + "
         "SIZEOF_HEADERS; a = SIZEOF_HEADERS; REST :t " + TAIL + " }", "cr"),
]
LEFT = [
    _row("OVERLAY", "OVERLAY 0x1000 : AT(0x4000) { .x { *(.text) } .y { *(.data) } } REST " + TAIL, "l"),
    _row("INSERT", "SECTIONS { .x : { *(.x) } } INSERT AFTER .text;", "l"),
    _row("INPUT", "INPUT(nothing.o) GROUP(-lc) STARTUP(b.o) SECTIONS { REST " + TAIL + " }", "l"),
    _row("INPUT_SECTION_FLAGS, unknown", ".t : { INPUT_SECTION_FLAGS(SHF_WRITE) *(*) } REST " + TAIL, "l"),
    _row("OUTPUT_FORMAT binary", "OUTPUT_FORMAT(binary) SECTIONS { REST " + TAIL + " }", "c"),
]
UNKNOWN = [
    _row("regions by attributes, of unknown objects",
         "MEMORY { rom (rx) : ORIGIN = 0x1000, LENGTH = 4K ram (w) : ORIGIN "
         "= 0x8000, LENGTH = 1M } SECTIONS { .text : { *(.text) } .ro : { *(.rodata .rodata.*) } .data : { *(.data "
         ".data.*) } REST " + TAIL + " }", "cdr"),
    _row("ONLY_IF_RO of unknown objects", ".x : ONLY_IF_RO { *(.rodata) } .x : ONLY_IF_RW { *(.rodata) q = .; } REST "
         + TAIL, "cd"),
    _row("NOLOAD of unknown objects", ".b (NOLOAD) : { *(.bss) } .d (NOLOAD) : { *(.data) } REST " + TAIL, "cd"),
    _row("nested sorts of unknown objects",
         ".t : { *(SORT_BY_NAME(SORT_BY_ALIGNMENT(.text.*))) *(.data SORT(.none.*)) } " "REST " + TAIL, "cr"),
    _row("AT> of unknown objects", "MEMORY { rom : ORIGIN = 0x1001, LENGTH = 4K ram : ORIGIN = 0x8000, LENGTH = 1M } "
         "SECTIONS { .text : { *(.text) } >rom .data : { *(.data) } >ram AT>rom REST >ram " + TAIL + " }", "cr",
         different=("load", "symbol")),
    _row("PROVIDE in a section, of unknown objects", ".t : { *(.text) PROVIDE(provided = 4); } REST _end = .; end = .; "
         "__stack = 2;"),
    _row("ALIGNOF of unknown objects", "REST a = ALIGNOF(.rest); " + TAIL, "l"),
    _row("a file of unknown objects", ".t : { b.o(.text) } REST " + TAIL, "c", different=("symbol",)),
    _row("through later symbols",
         ".t : { *(.text) a = b & 7; } b = c - 1; .d : { *(.data) c = .; d1 = SIZEOF(.d) + 1; } " "REST " + TAIL),
    _row("input sections in an unaligned section",
         ".t 0x400003 : { *(.text) *(.data) x = .; . = ALIGN(8); } REST " + TAIL, ""),
    _row("`. = e` moved on by conditions",
         ".t : { *(.text) . = MAX(., 0x30); x = .; . = . & ~7 ? ALIGN(16) + 2 : 0x40; " "y = .; } REST " + TAIL),
]
ROWS = COMMANDS + MEMORY + HEADS + INPUTS + DATA + DOT + VALUES + UNKNOWN
