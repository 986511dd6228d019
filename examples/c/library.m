# The files are made by examples/c/real: each .elf of the .c or .cc of its name.
elf /library library.elf 16384
start /library
quanta 0:1000000
repeat 100
