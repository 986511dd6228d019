# A difference of which one side is missing.
    .text
    .globl main
main:
    lla a1, word
    li a0, 0
    ret
    .data
word:
    .reloc ., R_RISCV_SUB32, main
    .word 0
