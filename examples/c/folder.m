# The files are made by examples/c/real: each .elf of the .c or .cc of its name.
elf /folder folder.elf 8192
start /folder
quanta 0:1000000
