/* A static program for Linux: code, constants and data each in pages of their own. */
ENTRY(_start)
SECTIONS {
  . = 0x401000;
  image_start = .;
  .text : { *(.text.start) *(.text .text.*) }
  . = ALIGN(4096);
  .rodata : { *(.rodata .rodata.*) }
  . = ALIGN(4096);
  .data : { *(.data .data.*) }
  .bss : { *(.bss .bss.*) *(COMMON) }
  image_end = .;
  ASSERT(SIZEOF(.text) <= 4096, "the code fills more than a page")
  /DISCARD/ : { *(.eh_frame) *(.note.*) }
}
