# The files are made by examples/c/real: each .elf of the .c or .cc of its name.
# Two processes: one counts files, of which one isn't there, the other the console's input.
file /poem.txt poem.txt
file /short.txt short.txt
stdin poem.txt
elf /wc wc.elf 8192
start /wc poem.txt nowhere.txt short.txt
start /wc
quanta 0:1000000 0:1000000
