# A program that is refused.
elf /program program.elf
start /program
quanta 0:1
# The files are made by examples/refused/real.
