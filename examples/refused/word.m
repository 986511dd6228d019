# A word that begins no line.
program /plain plain.elf
# The files are made by examples/refused/real.
