# The files are made by examples/c/real: each .elf of the .c or .cc of its name.
elf /calls calls.elf 16384
start /calls
quanta 0:1000000
