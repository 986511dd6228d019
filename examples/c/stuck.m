# The files are made by examples/c/real: each .elf of the .c or .cc of its name.
# Parent and child wait for each other: the run is stuck.
elf /stuck stuck.elf 4096
start /stuck
quanta 0:1000 1:1000
repeat 1000
