# The high part of a slot's distance, without its low part.
    .text
    .globl main
main:
    auipc a0, %got_pcrel_hi(main)
    li a0, 0
    ret
