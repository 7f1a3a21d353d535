/* An image that `ehc exec` runs: code, tables and the record in a segment that nothing writes, data in another. */
ENTRY(_start)
PHDRS {
  code PT_LOAD FILEHDR PHDRS FLAGS(5);
  data PT_LOAD FLAGS(6);
  frames 0x6474e550;                    /* PT_GNU_EH_FRAME */
  record 0x6e485831;                    /* the record for the runtime; in a segment and a section, so that strip keeps its place */
}
SECTIONS {
  . = 0x10000 + SIZEOF_HEADERS;
  .text : { *(.text .text.*) } :code
  /* The third word of a type record leads to the base's. Compilers write two words for a class without one, so zeros have to stand behind them: each record
     at a multiple of 32. */
  .types : SUBALIGN(32) {
    *(.rodata._ZTI* .srodata._ZTI* .data.rel.ro._ZTI* .data.rel.ro.local._ZTI* .sdata._ZTI*)
    . = ALIGN(32);
  } :code
  .rodata : { *(.rodata .rodata.* .srodata .srodata.* .data.rel.ro .data.rel.ro.*) } :code
  .init_array : ALIGN(8) {
    __init_array_start = .;
    KEEP(*(SORT(.init_array.*)))
    KEEP(*(.init_array))
    __init_array_end = .;
  } :code
  .ehc : ALIGN(8) { KEEP(*(.ehc)) } :code :record
  .gcc_except_table : ALIGN(4) { *(.gcc_except_table .gcc_except_table.*) } :code
  .eh_frame_hdr : ALIGN(4) { *(.eh_frame_hdr) } :code :frames
  /* The list of frames ends with a length 0, which crtend.o has where there is a library. */
  .eh_frame : ALIGN(8) { KEEP(*(.eh_frame)) LONG(0) } :code
  . = ALIGN(0x1000) + (. & 0xfff);
  /* An empty segment would stand at address 0. */
  .data : ALIGN(8) { *(.data .data.* .sdata .sdata.*) QUAD(0) } :data
  .bss : ALIGN(8) { *(.bss .bss.* .sbss .sbss.* COMMON) } :data
  .tdata : { *(.tdata .tdata.* .tbss .tbss.*) } :data
  ASSERT(SIZEOF(.tdata) == 0, "no register leads to thread_local variables under ehc exec")
  /DISCARD/ : { *(.riscv.attributes) *(.comment) *(.note*) }
}
