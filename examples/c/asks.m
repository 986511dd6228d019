# The files are made by examples/c/real: each .elf of the .c or .cc of its name.
elf /asks asks.elf 8192
start /asks
quanta 0:1000000 1:1000000
repeat 100
