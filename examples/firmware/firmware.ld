/* Firmware in two memories: code and constants in flash, data in RAM but loaded from flash. */
ENTRY(reset)
MEMORY {
  flash : ORIGIN = 0x8000, LENGTH = 16K
  ram : ORIGIN = 0x20000, LENGTH = 4K
}
build_number = 17;
SECTIONS {
  .vectors : { KEEP(*(.vectors)) . = 64; } >flash =0xEE
  .text : { *(.text.reset) *(.text .text.*) } >flash =0xCC
  .rodata : { *(.rodata .rodata.*) LONG(0x57A71C) LONG(build_number) } >flash
  .data : ALIGN(8) { *(.data .data.*) . = ALIGN(8); } >ram AT>flash
  .bss : { *(.bss .bss.*) *(COMMON) . = ALIGN(8); } >ram
  data_start = ADDR(.data);
  data_size = SIZEOF(.data);
  data_load = LOADADDR(.data);
  bss_start = ADDR(.bss);
  bss_size = SIZEOF(.bss);
  stack_top = ORIGIN(ram) + LENGTH(ram);
  ASSERT(SIZEOF(.vectors) == 64, "the table of vectors has 64 bytes")
  ASSERT(stack_top - (bss_start + bss_size) >= 1K, "less than 1K is left for the stack")
  /DISCARD/ : { *(.eh_frame) *(.note.*) }
}
