/* The image of a program: code and constants, then data. The address is of no account to a flat file; an ELF file at this one
   runs under qemu-riscv32 too. */
ENTRY(_start)
/* Newlib names these weakly, and a distance to a weak symbol that nothing defines is refused. */
EXTERN(__call_exitprocs __register_exitproc free)
/* The bytes of malloc's heap are those that the command line says, or 0: then it grows. */
PROVIDE(__heap_size = 0);
SECTIONS
{
    . = 0x20000;
    .text : { KEEP(*(.text.start)) *(.text .text.*) }
    .rodata : { *(.rodata .rodata.* .srodata .srodata.*) }
    .eh_frame : { *(.eh_frame .eh_frame.*) }
    .gcc_except_table : { *(.gcc_except_table .gcc_except_table.*) }
    PROVIDE(etext = .);
    .preinit_array : {
        PROVIDE_HIDDEN(__preinit_array_start = .);
        KEEP(*(.preinit_array))
        PROVIDE_HIDDEN(__preinit_array_end = .);
    }
    .init_array : {
        PROVIDE_HIDDEN(__init_array_start = .);
        KEEP(*(SORT_BY_INIT_PRIORITY(.init_array.*)))
        KEEP(*(.init_array))
        PROVIDE_HIDDEN(__init_array_end = .);
    }
    .fini_array : {
        PROVIDE_HIDDEN(__fini_array_start = .);
        KEEP(*(SORT_BY_INIT_PRIORITY(.fini_array.*)))
        KEEP(*(.fini_array))
        PROVIDE_HIDDEN(__fini_array_end = .);
    }
    .data : { *(.data.rel.ro .data.rel.ro.*) *(.data .data.*) }
    .got : { *(.got) *(.got.plt) }
    .sdata : { *(.sdata .sdata.*) }
    PROVIDE(_edata = .);
    .bss : { __bss_start = .; *(.sbss .sbss.* .bss .bss.* COMMON) }
    PROVIDE(_end = .);
    PROVIDE(end = .);
    /* Thread-local data has no place in a flat file, and is refused; it stands here so that the refusal says so. */
    .tdata : { *(.tdata .tdata.*) }
    .tbss : { *(.tbss .tbss.* .tcommon) }
}
