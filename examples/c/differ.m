# The files are made by examples/c/real: each .elf of the .c or .cc of its name.
# Each line that it writes is one that Linux may answer otherwise.
memory 256
elf /differ differ.elf 8192
start /differ
quanta 0:100000 1:100000
repeat 1000
