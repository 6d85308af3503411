/* A module for slot 0, whose addresses are taken relative to pc, or cut to 32 bits: so it runs in each slot. The code lies 65,536 bytes
 * above the slot's base, its data 256 MiB above it, and the heap, from rt_heap on, 512 MiB. */
SECTIONS {
  . = 0x100010000;
  .text : { start.o(.text) *(EXCLUDE_FILE(*words.o) .text EXCLUDE_FILE(*words.o) .text.*) *words.o(.text) } =0x1f2003d5
  . = 0x110000000;
  .rodata : { *(.rodata .rodata.*) }
  .data : { *(.data .data.* .init_array* .data.rel.ro* .got .got.plt) }
  . = ALIGN(16);
  .bss : { *(.bss .bss.* COMMON) }
  rt_heap = 0x120000000;
  /DISCARD/ : { *(.comment) *(.note*) *(.eh_frame*) }
}
