# The start of a program: sp points at argc, behind which stand argv, a zero, the environment and a zero, as Linux leaves
# them for a flat file and for an ELF file. Without relaxation no code uses gp. main is named here, so that a link looks for it
# in all libraries.
    .section .text.start, "ax"
    .globl _start
    .type _start, @function
_start:
    lw a0, 0(sp)
    addi a1, sp, 4
    slli a2, a0, 2
    add a2, a2, a1
    addi a2, a2, 4
    andi sp, sp, -16
    la a3, main
    call __flat_main
1:  j 1b
    .size _start, . - _start
