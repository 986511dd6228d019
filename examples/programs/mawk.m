# mawk, by a program from a file, over a file and standard input.
memory 512
file /sums.awk sums.awk
file /table.txt table.txt
stdin poem.txt
elf /mawk mawk.elf 32768
start /mawk -f sums.awk table.txt -
quanta 0:1000000
repeat 100
