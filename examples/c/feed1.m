# The files are made by examples/c/real: each .elf of the .c or .cc of its name.
elf /feed feed.elf 8192
start /feed
quanta 0:1 1:1 0:1 1:1
repeat 1000000
