# The files are made by examples/c/real: each .elf of the .c or .cc of its name.
elf /shapes shapes.elf 8192
start /shapes
quanta 0:1000000
