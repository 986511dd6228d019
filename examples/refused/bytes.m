# A byte outside 0x20 to 0x7e.
file /café text.txt
# The files are made by examples/refused/real.
