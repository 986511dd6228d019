# The files are made by examples/c/real: each .elf of the .c or .cc of its name.
elf /ends ends.elf 8192
start /ends illegal
start /ends break
start /ends abort
start /ends
start /ends forever
quanta 0:10000 1:10000 2:10000 3:10000 4:10000
repeat 20
