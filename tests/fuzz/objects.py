"""The pool of small objects that random links take theirs from, and an archive of some of them."""
from __future__ import annotations

import os
import subprocess
from random import Random

SOURCES = {
    "a": """
        .globl _start, main, data_a, absolute, text_a, hidden_len
        absolute = 0x1230
        hidden_len = 24
        .text
_start: nop; nop; nop
main:   .byte 0xe8; .long helper - . - 4
text_a: .byte 0xc3
        .section .text.a1,"ax"
        .balign 4
        .byte 1, 2, 3
        .section .rodata,"a"
        .balign 4
        .long 7, 8
        .data
        .balign 8
data_a: .quad main, 0x1122334455667788
        .bss
        .balign 16
        .skip 20
        .section .init_array.200,"aw",@init_array
        .quad main
        .section .comment
        .string "an assembler"
""",
    "b": """
        .globl helper, weak_b, data_b
        .weak weak_b
        .text
        .balign 8
helper: .byte 0xc3
weak_b: nop; nop
        .section .text.b1,"ax"
        .balign 16
        .byte 4
        .section .rodata.b,"a"
        .byte 5
        .data
data_b: .long 9
        .byte 10
        .section .tab.b,"a"
        .balign 8
        .quad 11
        .section .init_array.1000,"aw",@init_array
        .quad helper
        .bss
        .skip 4
        .comm buffer, 32, 32
""",
    "c": """
        .globl use, table_c
        .text
use:    .byte 0xc3
        .section .text.c1,"ax"
        .balign 8
        .byte 6, 7
        .section .rodata.c,"a"
        .byte 8, 9, 10
        .section .data.c,"aw"
        .balign 2
        .short 3
        .section .tab.c,"a"
table_c: .quad 12
        .quad end_c
        .globl end_c
        .weak end_c
""",
    "d": """
        .globl ram_code, noinit_d
        .section .ramfunc,"ax"
        .balign 32
ram_code: .byte 0x90, 0x90, 0xc3, 0x90, 0x90
        .section .noinit,"aw",@nobits
        .balign 4
noinit_d: .skip 12
        .section .rodata.d1,"a"
        .balign 2
        .byte 1, 2, 3, 4, 5
        .section .rodata.d2,"a"
        .balign 16
        .byte 1, 2, 3
        .section .data.d,"aw"
        .balign 32
        .quad 5
        .section .bss.d,"aw",@nobits
        .balign 64
        .skip 100
""",
    "e": """
        .globl cmds_e
        .section cmds,"a"
        .balign 8
cmds_e: .quad 1
        .section .init_array,"aw",@init_array
        .quad 0x33
        .section .init_array.00105,"aw",@init_array
        .quad 0x44
        .section .fini_array.7,"aw",@fini_array
        .quad 0x55
        .section .text.e2,"ax"
        .byte 0x90
        .section .text.e1,"ax"
        .balign 2
        .byte 0x90, 0xc3
        .section .empty.e,"a"
""",
    "f": """
        .globl uses_f
        .section .data.f,"aw"
        .balign 8
uses_f: .quad provided_1, provided_2, end, _end
        .quad sym_1, sym_2
        .weak sym_1, sym_2, end, _end, provided_1, provided_2
        .section .rodata.f,"a"
        .string "plain"
        .comm block_f, 10, 4
""",
    "g": """
        .globl first_g, last_g
        .section .vectors,"a"
        .balign 16
first_g: .quad _start_g, last_g
        .weak _start_g
        .text
last_g: .byte 0x90, 0xc3, 0x90
        .data
        .balign 4
        .long 1, 2, 3
        .section .note.x,"a",@note
        .balign 4
        .long 4, 4, 1
        .long 0, 0
        .bss
        .balign 8
        .skip 9
        .section .note.GNU-stack,""
""",
}
LIBRARY = {
    "x1": """
        .globl lib_one
        .section .text,"ax"
lib_one: .byte 0x90, 0x90, 0xc3
        .section .data.x1,"aw"
        .quad 0x1111
        .section .rodata.x1,"a"
        .byte 0x21
""",
    "x2": """
        .globl lib_two
        .section .text,"ax"
        .balign 4
lib_two: .byte 0xc3
        .data
        .long 0x2222
        .section .rodata.x2,"a"
        .balign 4
        .long 0x22
""",
}
NAMES = [f"{name}.o" for name in SOURCES]
ARCHIVE = "libx.a"
DEFINED = ["main", "text_a", "data_a", "helper", "weak_b", "data_b", "use", "table_c", "ram_code", "noinit_d", "cmds_e",
           "uses_f", "first_g", "last_g", "absolute", "hidden_len", "buffer", "lib_one"]
"""Names that objects of the pool define."""


def blocks(name: str, random: Random) -> str:
    """Common blocks of an object: some of its own, and some that others have too, with other sizes and alignments."""
    names = [f"{name}_{number}" for number in range(random.randrange(8))]
    names += random.sample([f"shared_{number}" for number in range(12)], random.randrange(6))
    random.shuffle(names)
    return "".join(f"\t.comm {one}, {random.randrange(1, 40)}, {1 << random.randrange(7)}\n" for one in names)


def own_names(text: str) -> list[str]:
    """The names that a source of the pool defines."""
    return [name for name in DEFINED if any(f"{begin}{name}{end}" in text for begin, end in
            (("\n", ":"), (" ", ":"), (" ", " = "), (".comm ", ",")))]


def groups(name: str, random: Random) -> str:
    """Groups of sections, of which other objects have some too, and references to what they define."""
    lines = []
    for number in random.sample(range(4), random.randrange(3)):
        kind = random.choice(["comdat", "comdat", "comdat", ""])
        owner = f"group_{number}" if kind else f"group_{number}_{name}"
        rest = f"@progbits,{owner}" + (f",{kind}" if kind else "")
        code, data = random.choice([".text", ".text.group"]), random.choice([".data", ".rodata.group", ".tab"])
        lines += [f'.section {code}.{number},"axG",{rest}', f".balign {1 << random.randrange(4)}", f".weak {owner}",
                  f"{owner}: .byte {', '.join(str(random.randrange(256)) for _ in range(random.randrange(1, 9)))}"]
        if random.randrange(2):
            lines += [f'.section {data}.{number},"awG",{rest}', f".weak {owner}_data", f"{owner}_data: .quad {owner}"]
        lines += [".data", f".quad {owner}"]
    if random.randrange(6) == 0:
        lines += ['.section .text.linkonce,"ax"', ".byte 1", '.section .gnu.linkonce.t.once,"ax",@progbits',
                  ".weak once", f"once: .byte {random.randrange(256)}, 3"]
    return "\n".join(lines) + "\n"


OPERATIONS = ["movq {0}@GOTPCREL(%rip), %rax", "movq {0}@GOTPCREL(%rip), %r12", "movl {0}@GOTPCREL(%rip), %ecx",
              "addq {0}@GOTPCREL(%rip), %r9", "cmpl {0}@GOTPCREL(%rip), %edx", "testq %rbx, {0}@GOTPCREL(%rip)",
              "call *{0}@GOTPCREL(%rip)", "jmp *{0}@GOTPCREL(%rip)", "cmpq $0, {0}@GOTPCREL(%rip)",
              "pushq {0}@GOTPCREL(%rip)", "leaq _GLOBAL_OFFSET_TABLE_(%rip), %rax"]


def references(name: str, text: str, random: Random) -> str:
    """References by a global offset table: to names of the object, of others (which may not be there), to a local
    one."""
    own = own_names(text)
    lines = [f'.section .text.got{random.randrange(3)},"ax"', f"near_{name}: nop"]
    for _ in range(random.randrange(4)):
        target = random.choice([*DEFINED, f"near_{name}", "nowhere", "sym_1"])
        if f" {target} = " in text:
            continue  # the assembler has the number
        lines += [random.choice(OPERATIONS).format(target)]
        lines += [] if target in own or target.startswith("near") else [f".weak {target}"]
    return "\n".join(lines) + "\n"


TEXTS = ["alpha", "pha", "a", "", "hello world", "world", "o world", "%d\\n", "\\n", "failed: %d\\n", "a longer text"]
MERGED = [(".rodata.str1.1", 1, 1), (".rodata.str1.1", 1, 1), (".rodata.str1.8", 1, 8), (".rodata.str4.4", 4, 4),
          (".rodata.str2.2", 2, 2), (".data.str1.1", 1, 1), (".rodata.cst8", 8, 8), (".rodata.cst16", 16, 16),
          (".rodata.cst4", 4, 4)]
"""Names, sizes of entries and alignments of sections whose entries are merged."""
WIDE = {1: ".string", 2: ".string16", 4: ".string32"}


def entry(name: str, size: int, random: Random) -> tuple[str, int]:
    """A string or a constant, and its bytes."""
    if ".cst" in name:
        return f".byte {random.randrange(3)}\n.zero {size - 1}", size
    text = random.choice(TEXTS)
    return f'{WIDE[size]} "{text}"', size * (len(text.replace("\\n", "n")) + 1)


def strings(name: str, random: Random) -> str:
    """Strings and constants that are merged with those of others, their names, and references to places in them."""
    lines, places = [], []
    for number, (section, size, align) in enumerate(random.sample(MERGED, random.randrange(5))):
        flags = "aM" + ("" if ".cst" in section else "S") + ("w" if section.startswith(".data") else "")
        lines += [f'.section {section},"{flags}",@progbits,{size}', f".balign {align}"]
        for count in range(random.randrange(1, 6)):
            label = random.choice([".L{0}_{1}_{2}", "own_{0}_{1}_{2}", "text_{0}_{1}_{2}"]).format(name, number, count)
            text, length = entry(section, size, random)
            lines += [f".globl {label}"] if label.startswith("text") else []
            lines += [f".balign {random.choice([1, align])}", f"{label}:", text]
            lines += [f".zero {random.randrange(1, 9) * size}"] if random.randrange(8) == 0 else []
            places += [f"{label} + {random.choice([0, 0, random.randrange(length)])}"] * random.randrange(3)
    for place in places:
        lines += random.choice([['.section .data.refs,"aw"', f".quad {place}"], [".data", f".long {place} - ."],
                                [f'.section .text.refs{random.randrange(2)},"ax"', f"leaq {place}(%rip), %rax"],
                                [f'.section .text.refs{random.randrange(2)},"ax"', f"movl ${place}, %eax"]])
    return "\n".join(lines) + "\n"


def ordered(name: str, random: Random) -> str:
    """Sections with SHF_LINK_ORDER."""
    lines = []
    for number in range(random.randrange(3)):
        code = f".text.{random.choice('zyx')}{number}{name}"
        table = random.choice([".tab.order", "cmds", ".rodata.order"])
        lines += [f'.section {code},"ax"', f"code_{name}_{number}: .byte 0x90",
                  f'.section {table},"ao",@progbits,{code}', f".quad code_{name}_{number}"]
    return "\n".join(lines) + "\n"


PLACES = ["table", "other", ".fast", ".slow", ".text.hot", ".rodata.z", ".data.z", ".mine", ".x.y"]
KINDS = ['"a"', '"a"', '"aw"', '"aw"', '"ax"', '"aw",@nobits', '"a",@note', '"awx"', '"aw",@init_array']


def orphans(name: str, random: Random) -> str:
    """Sections that scripts do not name, and references to the bounds of some."""
    lines = []
    for place in random.sample(PLACES, random.randrange(1, 6)):
        kind = random.choice(KINDS)
        lines += [f".section {place},{kind}", f".balign {1 << random.randrange(6)}"]
        if "nobits" in kind:
            lines += [f".skip {random.randrange(40)}"]
        elif "note" in kind:
            lines += [".long 4, 4, 1, 0, 0"]
        else:
            lines += [f".byte {random.randrange(256)}" for _ in range(random.randrange(7))]
        if random.randrange(3) == 0:
            lines += [f".globl {name}_{place.replace('.', '_')}", f"{name}_{place.replace('.', '_')}:"]
    if random.randrange(2):
        bounds = [f"__{word}_{place}" for word in ("start", "stop")
                  for place in random.choice([["table"], ["other", "cmds"]])]
        lines += [".data", f".weak {', '.join(bounds)}", f".quad {', '.join(bounds)}"]
    return "\n".join(lines) + "\n"


OPERATIONS_OF_FRAMES = [".cfi_def_cfa_offset 16", ".cfi_remember_state\n.cfi_restore_state",
                        ".cfi_escape 0x2e, 16", ".cfi_escape 0, 0, 0",
                        ".cfi_offset 6, -16", ".cfi_escape 0x16, 3, 2, 0x77, 8", ""]
KINDS_OF_FRAMES = [".cfi_startproc", ".cfi_startproc", ".cfi_startproc simple", ".cfi_startproc\n.cfi_signal_frame",
                   ".cfi_startproc\n.cfi_personality 3, person", ".cfi_startproc\n.cfi_personality 0x9b, person_ref",
                   ".cfi_startproc\n.cfi_personality 0, own_person\n.cfi_lsda 0x1b, .Llsda",
                   ".cfi_startproc\n.cfi_personality 3, person\n.cfi_lsda 3, .Llsda",
                   ".cfi_startproc\n.cfi_b_key_frame", ".cfi_startproc\n.cfi_return_column 3"]
"""How entries of `.eh_frame` begin, and what is in them."""


def frames(name: str, random: Random) -> str:
    """Functions with entries in `.eh_frame`, of which equal CIEs are merged, and ends."""
    lines = ['.section .gcc_except_table,"a"', ".Llsda: .byte 1", ".text", "own_person: nop",
             ".weak person, person_ref, main"]
    for number in range(random.randrange(7)):
        section = random.choice([".text", ".text", ".text.f", ".gone", f".text.{name}{number}"])
        label = random.choice([f"frame_{name}_{number}", f".Lframe_{number}"])
        lines += [f'.section {section},"ax"', f"{label}:"]
        lines += [f".globl {label}"] if label.startswith("frame") and random.randrange(2) else []
        lines += [random.choice(KINDS_OF_FRAMES).replace(".cfi_b_key_frame", ""), "nop"]
        for _ in range(random.randrange(4)):
            lines += [random.choice(OPERATIONS_OF_FRAMES), random.choice(["nop", ".skip 3", ".skip 70"])]
        lines += [".cfi_endproc"]
        lines += [".data", f".quad {label}"] if random.randrange(3) == 0 else []
    if random.randrange(8) == 0:
        lines += ['.section .eh_frame,"a",@progbits', random.choice(["end_of_frames:", ""]), ".long 0"]
    return "\n".join(lines) + "\n"


def stabs(name: str, random: Random) -> str:
    """Stabs: rows of headers that several objects have, of functions and of variables."""
    lines = [".text", f'.stabs "{name}.c",100,0,0,.Ltext', ".Ltext:"]
    for header in random.sample("xyz", random.randrange(4)):
        lines += [f'.stabs "{header}.h",130,0,0,0', f'.stabs "{header}:t({random.randrange(4)},1)=(0,1)",128,0,0,0']
        inner = ['.stabs "inner.h",130,0,0,0', '.stabs "in:t(2,1)",128,0,0,0', ".stabn 162,0,0,0"]
        lines += inner * random.randrange(2)
        lines += [".stabn 162,0,0,0"]
    for number in range(random.randrange(4)):
        section = random.choice([".text", ".text.f", ".gone", ".data"])
        kind = 38 if section == ".data" else 36
        lines += [f'.section {section},"{"aw" if kind == 38 else "ax"}"', f"of_{name}_{number}: .byte 1",
                  f'.stabs "of_{name}_{number}:F(0,1)",{kind},0,{number},of_{name}_{number}']
        lines += [f'.Lend_{number}: .stabs "",36,0,0,.Lend_{number}-of_{name}_{number}'] if kind == 36 else []
    return "\n".join(lines) + "\n"


def make_frames(folder: str, seed: int) -> list[str]:
    """Assembles objects with entries of `.eh_frame` and with stabs; gives their names."""
    names = []
    for number in range(Random(f"{seed} frames").randrange(1, 5)):
        random = Random(f"{seed} frames {number}")
        text = frames(f"e{number}", random) + (stabs(f"e{number}", random) if random.randrange(2) else "")
        names.append(f"e{number}.o")
        subprocess.run(["as", "-W", "-o", names[-1], "-"], input=text, text=True, check=True, timeout=180, cwd=folder)
    return names


def make_orphans(folder: str, seed: int) -> list[str]:
    """Assembles objects with such sections; gives their names."""
    names = []
    for number in range(Random(f"{seed} orphans").randrange(1, 4)):
        text = orphans(f"o{number}", Random(f"{seed} orphans {number}"))
        names.append(f"o{number}.o")
        subprocess.run(["as", "-W", "-o", names[-1], "-"], input=text, text=True, check=True, timeout=180, cwd=folder)
    return names


def make(folder: str, with_blocks: int | None = None, with_more: int | None = None) -> None:
    """Assembles the pool in a folder; each object has common blocks of this seed, and groups, references by a global
    offset table, ordered sections, and strings and constants that are merged, of that, if there is one."""
    for name, text in {**SOURCES, **LIBRARY}.items():
        options: list[str] = []
        if with_blocks is not None:
            text += blocks(name, Random(f"{with_blocks} {name}"))
        if with_more is not None:
            random = Random(f"{with_more} more {name}")
            text += groups(name, random) + references(name, text, random) + ordered(name, random)
            text += strings(name, random)
            options = random.choice([[], ["-mrelax-relocations=no"]])
        if with_blocks is None and with_more is None and os.path.exists(os.path.join(folder, f"{name}.o")):
            continue
        subprocess.run(["as", *options, "-o", f"{name}.o", "-"], input=text, text=True, check=True, timeout=180,
                       cwd=folder)
    members = [f"{name}.o" for name in LIBRARY]
    if os.path.exists(os.path.join(folder, ARCHIVE)):
        os.unlink(os.path.join(folder, ARCHIVE))
    subprocess.run(["ar", "rcsD", ARCHIVE, *members], check=True, timeout=180, cwd=folder)
