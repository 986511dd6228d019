# The files are made by examples/c/real: each .elf of the .c or .cc of its name.
# A shell joins programs by pipes. What `lines 900 80` writes is 77,400 bytes, more than a pipe holds.
memory 256
elf /shell shell.elf 8192
elf /lines lines.elf 8192
elf /match match.elf 8192
elf /wc wc.elf 8192
elf /ends ends.elf 8192
file /poem.txt poem.txt
stdin shell.txt
start /shell
quanta 0:1000 1:700 2:300
repeat 10000
