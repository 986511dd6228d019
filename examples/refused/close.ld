/* Two sections at places that overlap. */
ENTRY(main)
SECTIONS
{
    .text 0x20000 : { *(.text .text.*) }
    .sdata 0x20004 : { *(.sdata .sdata.* .data .data.*) }
    .sbss : { *(.sbss .sbss.* .bss .bss.*) }
}
