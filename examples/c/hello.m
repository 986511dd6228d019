# The files are made by examples/c/real: each .elf of the .c or .cc of its name.
elf /hello hello.elf 8192
start /hello one two
quanta 0:1000000
