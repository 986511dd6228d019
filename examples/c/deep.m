# The files are made by examples/c/real: each .elf of the .c or .cc of its name. It puts the addresses of the dumps in, too.
# The dumps show the lowest bytes of the two stacks, right above the data: zeros where the stack never came that far.
elf /enough deep.elf 16384
elf /short deep.elf 4096
start /enough 20
start /short 20
quanta 0:200000 1:200000
dump 1 @stack1@ 16
dump 2 @stack2@ 16
