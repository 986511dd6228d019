# A file where a folder should be.
file /a text.txt
file /a/b text.txt
elf /plain plain.elf
start /plain
quanta 0:1
# The files are made by examples/refused/real.
