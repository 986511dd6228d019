# No line makes the folder.
file /etc/motd text.txt
elf /plain plain.elf
start /plain
quanta 0:1
# The files are made by examples/refused/real.
