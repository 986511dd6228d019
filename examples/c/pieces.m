# The files are made by examples/c/real: each .elf of the .c or .cc of its name.
# A pipe holds 65,536 bytes, however they were written. Under Linux the writer waits here, for itself.
elf /differ differ.elf 8192
start /differ pieces
quanta 0:1000000
