# One page has no room for a program.
memory 1
elf /plain plain.elf
start /plain
quanta 0:1
# The files are made by examples/refused/real.
