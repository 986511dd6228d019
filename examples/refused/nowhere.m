# No program has the path.
elf /plain plain.elf
start /plan
quanta 0:1
# The files are made by examples/refused/real.
