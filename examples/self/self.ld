/* A static program for Linux with parts of a C library: code, constants and data each in pages of their own. */
ENTRY(_start)
SECTIONS {
  . = 0x401000;
  .text : { *(.text.start) *(.text .text.*) }
  . = ALIGN(4096);
  .rodata : { *(.rodata .rodata.*) }
  . = ALIGN(8);
  .init_array : {
    init_array_start = .;
    KEEP(*(.init_array .init_array.*))
    init_array_end = .;
  }
  . = ALIGN(4096);
  .data : { *(.data .data.*) }
  .bss : { *(.bss .bss.*) *(COMMON) }
  /DISCARD/ : { *(.comment) *(.eh_frame) *(.note.*) }
}
