# Two pointers that share two bytes. Both words hold what their relocations say.
    .globl main
    .text
main:
    lla a1, words
    li a0, 0
    ret
    .data
words:
    .word main
    .reloc words + 2, R_RISCV_32, _start + 2
    .word 0
