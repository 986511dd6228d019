elf /depth depth.elf 16384
start /depth
quanta 0:1000000
