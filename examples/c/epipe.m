# The files are made by examples/c/real: each .elf of the .c or .cc of its name.
# A program that writes into a pipe that nobody reads any more: EPIPE, and no signal.
memory 256
elf /shell shell.elf 8192
elf /lines lines.elf 8192
elf /match match.elf 8192
stdin epipe.txt
start /shell
quanta 0:1000 1:700 2:300
repeat 1000
