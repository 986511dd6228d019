# zlib's own example: it compresses and takes apart again, in memory and in the file foo.gz.
memory 1024
elf /zlib zlib.elf 16384
start /zlib foo.gz
quanta 0:1000000
repeat 100
