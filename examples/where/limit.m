# Needs limit.elf: examples/where/real builds it.
elf /limit limit.elf 8192
start /limit
quanta 0:1000000
repeat 10
