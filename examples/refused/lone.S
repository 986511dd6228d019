# The low part of a distance, at a high part that has no relocation.
    .text
    .globl main
main:
high:
    auipc a0, 0
    .reloc ., R_RISCV_PCREL_LO12_I, high
    addi a0, a0, 0
    li a0, 0
    ret
