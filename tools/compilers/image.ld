ENTRY(_start)
SECTIONS {
  . = 0x401000;
  .text : { *(.text .text.*) }
  . = ALIGN(4096);
  .rodata : { *(.rodata .rodata.*) }
  . = ALIGN(8);
  init_array_start = .;
  .init_array : { KEEP(*(SORT(.init_array.*))) KEEP(*(.init_array)) }
  init_array_end = .;
  . = ALIGN(4096);
  .data : { *(.data .data.*) }
  .bss : { *(.bss .bss.* COMMON) }
}
