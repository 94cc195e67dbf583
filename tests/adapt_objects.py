"""The small objects that the rows of the tests link."""
from __future__ import annotations

import os
import subprocess

SOURCES = {
    "a.s": """
        .globl _start, main, data_a, absolute
        .globl text_a
        absolute = 0x1230
        .text
_start: nop
main:   call helper
text_a: ret
        .section .text.a1,"ax"
        .balign 4
        .byte 1, 2, 3
        .section .rodata,"a"
        .balign 4
        .long 7
        .data
        .balign 8
data_a: .quad main
        .bss
        .balign 16
        .skip 20
        .section .init_array.00200,"aw"
        .quad main
        .section .comment
        .string "an assembler"
        .section .debug_info
        .long 1, 2, 3
""",
    "b.s": """
        .globl helper, weak_b
        .weak weak_b
        .text
helper: ret
weak_b: nop
        .section .text.b1,"ax"
        .balign 16
        .byte 4
        .section .rodata.b,"a"
        .byte 5
        .data
        .long 9
        .section .tab+b,"a"
        .quad 11
        .section .init_array.00100,"aw"
        .quad helper
        .bss
        .skip 4
        .comm buffer, 32, 32
        .section .comment
        .string "another assembler"
""",
    "c.s": """
        .globl use, table_c
        .text
use:    .quad end, _end, provided, __stack
        .section .tab+c,"a"
table_c: .quad 12
        .section .text.c1,"ax"
        .balign 8
        .byte 6, 7
        .section .rodata.c,"a"
        .byte 8, 9, 10
        .section .data.c,"aw"
        .balign 2
        .short 3
""",
}
NAMES = ["a.o", "b.o", "c.o"]


def make(folder: str) -> list[str]:
    """Assembles the objects in a folder; gives their paths."""
    paths: list[str] = []
    for name, text in SOURCES.items():
        path = os.path.join(folder, name[:-2] + ".o")
        subprocess.run(["as", "-o", path, "-"], input=text, text=True, check=True, timeout=180)
        paths.append(path)
    return paths
