# The files are made by examples/c/real: each .elf of the .c or .cc of its name.
elf /absent absent.elf 8192
start /absent
quanta 0:1000000
