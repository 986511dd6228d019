# Files of more than 64 MiB together.
file /a large.bin
file /b large.bin
file /c large.bin
file /d large.bin
file /e large.bin
elf /plain plain.elf
start /plain
quanta 0:1
# The files are made by examples/refused/real.
