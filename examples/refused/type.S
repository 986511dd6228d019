# A pointer of 64 bits.
    .text
    .globl main
main:
    lla a1, word
    li a0, 0
    ret
    .data
word:
    .reloc ., R_RISCV_64, main
    .word 0, 0
