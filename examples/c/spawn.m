# The files are made by examples/c/real: each .elf of the .c or .cc of its name.
# A program starts others, with pipes between them, and says how they end.
memory 256
elf /spawn spawn.elf 8192
elf /lines lines.elf 8192
elf /match match.elf 8192
elf /wc wc.elf 8192
elf /ends ends.elf 8192
start /spawn
quanta 0:1000 1:1000
repeat 1000
