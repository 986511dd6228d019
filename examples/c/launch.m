# The files are made by examples/c/real: each .elf of the .c or .cc of its name.
# A small shell starts other programs, one after the other; each runs in memory that the one before gave back.
memory 256
elf /launch launch.elf 8192
elf /hello hello.elf 8192
elf /ends ends.elf 8192
dir /etc
file /etc/a short.txt
file /etc/b short.txt
file /etc/c short.txt
file /etc/d short.txt
file /etc/e short.txt
file /etc/f short.txt
file /etc/g short.txt
file /etc/h short.txt
file /etc/i short.txt
file /etc/j short.txt
stdin launch.txt
start /launch
quanta 0:500
repeat 1000
