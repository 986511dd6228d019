# The files are made by examples/c/real: each .elf of the .c or .cc of its name.
# A process waits for room in a pipe that nobody else can empty: the run is stuck.
elf /stuck stuck.elf 4096
start /stuck full
quanta 0:1000
repeat 1000
