# A file above 16 MiB.
file /a longer.bin
elf /plain plain.elf
start /plain
quanta 0:1
# The files are made by examples/refused/real.
