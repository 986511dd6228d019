# The files are made by examples/c/real: each .elf of the .c or .cc of its name.
# A system call is given an address that is nobody's.
elf /differ differ.elf 8192
start /differ pointer
quanta 0:1000000
