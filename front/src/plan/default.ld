/* The sections of GNU ld's default script for static programs, in the profile. */
ENTRY(_start)
SECTIONS {
  PROVIDE(__executable_start = 0x400000);
  . = 0x401000;
  .note.gnu.build-id : { *(.note.gnu.build-id) }
  .note.gnu.property : { *(.note.gnu.property) }
  . = ALIGN(4096);
  .init : { KEEP(*(.init)) }
  .text : {
    *(.text.unlikely .text.*_unlikely .text.unlikely.*)
    *(.text.exit .text.exit.*)
    *(.text.startup .text.startup.*)
    *(.text.hot .text.hot.*)
    *(SORT_BY_NAME(.text.sorted.*))
    *(.text .stub .text.* .gnu.linkonce.t.*)
  }
  .fini : { KEEP(*(.fini)) }
  PROVIDE(__etext = .);
  PROVIDE(_etext = .);
  PROVIDE(etext = .);
  . = ALIGN(4096);
  .rodata : { *(.rodata .rodata.* .gnu.linkonce.r.*) }
  .rodata1 : { *(.rodata1) }
  .eh_frame : { KEEP(*(.eh_frame)) *(.eh_frame.*) }
  .gcc_except_table : { *(.gcc_except_table .gcc_except_table.*) }
  . = ALIGN(4096) + (. % 4096);
  .preinit_array : {
    PROVIDE(__preinit_array_start = .);
    KEEP(*(.preinit_array))
    PROVIDE(__preinit_array_end = .);
  }
  .init_array : {
    PROVIDE(__init_array_start = .);
    KEEP(*(SORT_BY_NAME(.init_array.*)))
    KEEP(*(SORT_BY_NAME(.ctors.*)))
    KEEP(*(.init_array EXCLUDE_FILE(*crtbegin.o *crtbegin?.o *crtend.o *crtend?.o) .ctors))
    PROVIDE(__init_array_end = .);
  }
  .fini_array : {
    PROVIDE(__fini_array_start = .);
    KEEP(*(SORT_BY_NAME(.fini_array.*)))
    KEEP(*(SORT_BY_NAME(.dtors.*)))
    KEEP(*(.fini_array EXCLUDE_FILE(*crtbegin.o *crtbegin?.o *crtend.o *crtend?.o) .dtors))
    PROVIDE(__fini_array_end = .);
  }
  .ctors : { KEEP(*(.ctors)) }
  .dtors : { KEEP(*(.dtors)) }
  .data.rel.ro : { *(.data.rel.ro.local* .data.rel.ro .data.rel.ro.* .gnu.linkonce.d.rel.ro.*) }
  .data : { *(.data .data.* .gnu.linkonce.d.*) }
  .data1 : { *(.data1) }
  _edata = .;
  PROVIDE(edata = .);
  __bss_start = .;
  .bss : {
    *(.dynbss)
    *(.bss .bss.* .gnu.linkonce.b.*)
    *(COMMON)
  }
  . = ALIGN(8);
  _end = .;
  PROVIDE(end = .);
}
