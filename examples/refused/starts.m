# No start line.
elf /plain plain.elf
quanta 0:1
# The files are made by examples/refused/real.
