# The files are made by examples/c/real: each .elf of the .c or .cc of its name.
# Four programs share the memory by turns. What one writes at once stands together; the order comes of the turns alone.
memory 512
file /poem.txt poem.txt
elf /hello hello.elf 8192
elf /wc wc.elf 8192
elf /heap heap.elf 8192
elf /folder folder.elf 8192
start /hello by turns
start /wc poem.txt
start /heap
start /folder
quanta 0:700 1:700 2:700 3:700
repeat 1000
