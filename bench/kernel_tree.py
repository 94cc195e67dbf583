"""Makes a tree of objects as a kernel's last link has them, for bench/ld: sections, script, options, a thin archive.

The objects are assembled by `as`: functions that call those of other objects, data, strings, tables of addresses and
initial code. The script has PHDRS, a part for initial code, tables with names for their ends, and symbols of objects in
its expressions.
"""
import os
import subprocess
from concurrent.futures import ThreadPoolExecutor

FUNCTIONS = 24
"""The functions of an object."""

SCRIPT = """OUTPUT_FORMAT("elf64-x86-64", "elf64-x86-64", "elf64-x86-64")
OUTPUT_ARCH(i386:x86-64)
ENTRY(phys_start)
jiffies = jiffies_64;
PHDRS {
  text PT_LOAD FLAGS(5);
  data PT_LOAD FLAGS(6);
  init PT_LOAD FLAGS(7);
  note PT_NOTE FLAGS(0);
}
SECTIONS {
  . = (0xffffffff80000000 + ALIGN(0x1000000, 0x200000));
  phys_start = ABSOLUTE(start_0 - 0xffffffff80000000);
  .text : AT(ADDR(.text) - 0xffffffff80000000) {
    _text = .;
    _stext = .;
    KEEP(*(.head.text))
    *(.text.hot .text.hot.*) *(.text) *(.text.unlikely .text.unlikely.*) *(.ref.text)
    . = ALIGN(8);
    __entry_text_start = .; *(.entry.text) __entry_text_end = .;
    *(.fixup)
  } :text = 0xcccccccc
  . = ALIGN(4096);
  _etext = .;
  .rodata : AT(ADDR(.rodata) - 0xffffffff80000000) {
    __start_rodata = .;
    *(.rodata) *(.rodata.*) *(.data..ro_after_init)
    . = ALIGN(8);
    __start___tracepoints_ptrs = .; KEEP(*(__tracepoints_ptrs)) __stop___tracepoints_ptrs = .;
  } :text
  __ksymtab : AT(ADDR(__ksymtab) - 0xffffffff80000000) {
    __start___ksymtab = .; KEEP(*(SORT(___ksymtab+*))) __stop___ksymtab = .;
  }
  __ksymtab_strings : AT(ADDR(__ksymtab_strings) - 0xffffffff80000000) { *(__ksymtab_strings) }
  . = ALIGN((4096)); __end_rodata = .;
  . = ALIGN(4);
  __ex_table : AT(ADDR(__ex_table) - 0xffffffff80000000) {
    __start___ex_table = .; KEEP(*(__ex_table)) __stop___ex_table = .;
  }
  .notes : AT(ADDR(.notes) - 0xffffffff80000000) { __start_notes = .; KEEP(*(.note.*)) __stop_notes = .; } :text :note
  .data : AT(ADDR(.data) - 0xffffffff80000000) {
    . = ALIGN(8192);
    *(.data..page_aligned) *(.data..cacheline_aligned) *(.data..read_mostly) *(.data) *(.data.*)
    _edata = .;
  } :data
  . = ALIGN(4096);
  __init_begin = .;
  .init.text : AT(ADDR(.init.text) - 0xffffffff80000000) {
    _sinittext = .; *(.init.text .init.text.*) _einittext = .;
  } :init
  .init.data : AT(ADDR(.init.data) - 0xffffffff80000000) {
    *(.init.data .init.data.*)
    . = ALIGN(8);
    __initcall_start = .; KEEP(*(.initcallearly.init))
    __initcall0_start = .; KEEP(*(.initcall6.init)) __initcall_end = .;
  }
  .altinstructions : AT(ADDR(.altinstructions) - 0xffffffff80000000) { *(.altinstructions) }
  . = ALIGN(4096);
  __init_end = .;
  .bss : AT(ADDR(.bss) - 0xffffffff80000000) {
    __bss_start = .; *(.bss..page_aligned) *(.bss) *(COMMON) . = ALIGN(4096); __bss_stop = .;
  }
  . = ALIGN(4096);
  _end = .;
  half = _end / 2;
  .comment 0 : { *(.comment) }
  /DISCARD/ : { *(.exitcall.exit) *(.discard) *(.discard.*) *(.eh_frame) *(.note.GNU-stack) *(.modinfo) }
}
ASSERT((_end - _text <= 0x40000000), "the image is too large")
INIT = ABSOLUTE(init_data_0);
"""


def source(number, count, extra=0, symbols=0, code=0x90, debug=False):
    """The assembly of an object; with `extra` instructions more, `symbols` more global names, another `code` byte, and
    debug information that has relocations."""
    lines = [".text", ".Ltext:"] if debug else []
    for index in range(FUNCTIONS):
        name, other = f"f_{number}_{index}", f"f_{(number * 7 + index * 13 + 1) % count}_{index}"
        section = ".text" if index % 6 else '.text.unlikely,"ax",@progbits'
        lines += [f".section {section}" if index % 6 == 0 else ".text", f".globl {name}", f".type {name},@function",
                  ".balign 16", f"{name}:", "pushq %rbp", "movq %rsp,%rbp", f"call {other}",
                  f"movq $string_{index},%rdi", f"movl data_{number}_{index % 4}(%rip),%eax", "testl %eax,%eax",
                  "je 1f", f"call f_{(number + 1) % count}_{index}", f"call f_{(number + 5) % count}_{index}",
                  "1:", f".fill {20 + (number * index) % 90},1,{code}", "popq %rbp", "ret", f".size {name},.-{name}",
                  '.section .rodata.str1.1,"aMS",@progbits,1', f'string_{index}: .asciz "message {number} {index} %s"']
        if index % 5 == 0:
            lines += [f'.section ___ksymtab+{name},"a"', f".long {name}-.", ".long 0",
                      '.section __ksymtab_strings,"aMS",@progbits,1', f'.asciz "{name}"']
    lines += [".text", f".fill {extra},1,0x90"] if extra else []
    for index in range(4):
        lines += [".data", f".globl data_{number}_{index}", ".balign 8", f"data_{number}_{index}:",
                  f".quad f_{number}_{index}, {index}, 0, f_{(number + 3) % count}_0", ".bss", ".balign 64",
                  f"zeros_{index}: .zero {64 + number % 512}"]
    lines += ['.section .init.text,"ax",@progbits', f"init_{number}:", f"call f_{number}_0",
              f"movq $init_data_{number},%rsi", "ret", '.section .init.data,"aw"', f".globl init_data_{number}",
              f"init_data_{number}: .quad {number}", '.section .initcall6.init,"a"', f".quad init_{number}",
              '.section __ex_table,"a"', ".balign 4", f".long f_{number}_1-.,f_{number}_2-.,0",
              '.section .altinstructions,"a"', f".long f_{number}_3-.", '.section .discard.reach,"",@progbits',
              f".long {number}", '.section .rodata,"a"', f".quad f_{number}_5, f_{(number + 9) % count}_6",
              '.section .debug_info,"",@progbits', ".fill 3000,1,1", '.section .note.GNU-stack,"",@progbits']
    lines += debug_lines(number) if debug else []
    for index in range(symbols):
        lines += [".data", f".globl more_{number}_{index}", f"more_{number}_{index}: .quad 1"]
    if number == 0:
        lines += ['.section .head.text,"ax"', ".globl start_0", "start_0: jmp f_0_0", ".data", ".globl jiffies_64",
                  ".balign 64", "jiffies_64: .quad 0", ".text", "movq jiffies(%rip),%rax"]
    return "\n".join(lines) + "\n"


def debug_lines(number):
    """What `-g` adds: relocations to functions, strings and other sections of debug information."""
    lines = ['.section .debug_abbrev,"",@progbits', ".Labbrev:", ".fill 60,1,7", '.section .debug_line,"",@progbits',
             ".Lline:", ".fill 400,1,3", ".quad .Ltext", '.section .debug_info,"",@progbits', ".Linfo:", ".long 1000",
             ".long .Labbrev, .Lname, .Lline"]
    types = [f'.Lt{at}: .asciz "type number {at} of all"' for at in range(6)]
    texts = [f'.Lname: .asciz "{object_name(number)}"', *types]
    for index in range(FUNCTIONS):
        lines += [f".long .Ls{index}", f".quad f_{number}_{index}", ".fill 20,1,5", f".long .Lt{index % 6}"]
        texts.append(f'.Ls{index}: .asciz "f_{number}_{index}"')
    return [*lines, '.section .debug_str,"MS",@progbits,1', *texts, '.section .debug_aranges,"",@progbits', ".long 44",
            ".long .Linfo", ".quad .Ltext, 100"]


def assemble(folder, name, text):
    """Makes an object of a source."""
    path = os.path.join(folder, name)
    os.makedirs(os.path.dirname(path), exist_ok=True)
    subprocess.run(["as", "-o", path, "-"], input=text.encode(), check=True)


def object_name(number):
    """The path of an object: 20 in a folder."""
    return f"d{number // 20}/o{number}.o"


def make(folder, count, debug=False):
    """Makes the tree; gives the words of its link, without the linker and the output."""
    with open(os.path.join(folder, "kernel.lds"), "w", encoding="ascii") as file:
        file.write(SCRIPT)

    def write(number):
        assemble(folder, object_name(number), source(number, count, debug=debug))

    with ThreadPoolExecutor(2) as pool:
        list(pool.map(write, range(count)))
        list(pool.map(lambda number: assemble(folder, f"lib/l{number}.o", library(number)), range(40)))
    archive(folder, count)
    subprocess.run(["ar", "rcs", "lib/lib.a", *(f"lib/l{number}.o" for number in range(40))], cwd=folder, check=True)
    return WORDS


def archive(folder, count):
    """Makes the thin archive of all objects anew, as a kernel's build does."""
    if os.path.exists(os.path.join(folder, "kernel.a")):
        os.remove(os.path.join(folder, "kernel.a"))
    names = [object_name(number) for number in range(count)]
    subprocess.run(["ar", "cDPrST", "kernel.a", *names], cwd=folder, check=True)


WORDS = ["-m", "elf_x86_64", "-z", "max-page-size=0x200000", "-z", "noexecstack", "-T", "kernel.lds", "--whole-archive",
         "kernel.a", "--no-whole-archive", "--start-group", "lib/lib.a", "--end-group"]
"""The words of the link."""


def library(number):
    """A member of the library, of which a link takes none: nothing is undefined after the objects."""
    return f".text\n.globl lib_{number}\nlib_{number}: call lib_{(number + 1) % 40}\nret\n" \
           '.section .note.GNU-stack,"",@progbits\n'
