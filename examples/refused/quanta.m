# No quanta.
elf /plain plain.elf
start /plain
# The files are made by examples/refused/real.
