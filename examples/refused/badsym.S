# A pointer into a section that no program loads.
    .section .notes, "", @progbits
note:
    .word 1
    .text
    .globl main
main:
    lla a1, word
    li a0, 0
    ret
    .data
word:
    .word note
