/* A static program for Linux. */
ENTRY(_start)
SECTIONS {
  . = 0x401000;
  image_start = .;
  .text : { KEEP(*(.text.start)) *(.text .text.*) }
  . = ALIGN(4096);
  .rodata : { *(.rodata .rodata.*) *(.eh_frame) }
  . = ALIGN(4096);
  .data : { *(.data .data.*) }
  .bss : { *(.bss .bss.*) *(COMMON) }
  image_end = .;
}
