# The files are made by examples/c/real: each .elf of the .c or .cc of its name.
elf /heap heap.elf 8192
start /heap
quanta 0:1000000
