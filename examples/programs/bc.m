# bc, with its library of functions, which is bc's own code.
memory 512
file /numbers.bc numbers.bc
elf /bc bc.elf 32768
start /bc -l numbers.bc
quanta 0:1000000
repeat 100
