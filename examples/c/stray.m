# The files are made by examples/c/real: each .elf of the .c or .cc of its name.
elf /stray stray.elf 8192
start /stray block
quanta 0:1000000
