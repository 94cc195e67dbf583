/* A kernel in the top two gigabytes, loaded from 1 MiB on. */
ENTRY(start)
BASE = 0xffffffff80000000;
SECTIONS {
  . = BASE + 0x100000;
  kernel_start = .;
  load_start = . - BASE;
  .text : AT(. - BASE) { KEEP(*(.multiboot)) KEEP(*(.text.start)) *(.text .text.*) } =0x90
  . = ALIGN(4096);
  .rodata : AT(. - BASE) {
    *(.rodata .rodata.*)
    . = ALIGN(8);
    PROVIDE(starters = .);
    KEEP(*(.starters))
    PROVIDE(starters_end = .);
  }
  . = ALIGN(4096);
  .data : AT(. - BASE) { *(.data .data.*) }
  load_end = . - BASE;
  . = ALIGN(4096);
  .bss : AT(. - BASE) { *(.bss .bss.*) *(COMMON) }
  bss_end = . - BASE;
  PROVIDE(kernel_end = .);
  ASSERT(kernel_end - kernel_start <= 0x200000, "the kernel is larger than 2 MiB")
  /DISCARD/ : { *(.eh_frame) *(.note.*) }
}
