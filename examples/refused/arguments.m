# The arguments need more than 16 bytes of stack.
elf /plain plain.elf 16
start /plain one two three four
quanta 0:1
# The files are made by examples/refused/real.
