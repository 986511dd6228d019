# A path that stands twice.
file /a text.txt
dir /a
elf /plain plain.elf
start /plain
quanta 0:1
# The files are made by examples/refused/real.
