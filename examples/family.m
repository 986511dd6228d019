# The files are made by examples/real.
# A program that starts three children, as a shell does, and lists a folder.
memory 256
elf /sh family-pic.elf 4096
dir /etc
file /etc/a family.m
file /etc/b family.m
file /etc/c family.m
file /etc/d family.m
file /etc/e family.m
file /etc/f family.m
file /etc/g family.m
file /etc/h family.m
file /etc/i family.m
file /etc/j family.m
start /sh
quanta 0:500
repeat 1000
