# A word too many.
memory 16 17
# The files are made by examples/refused/real.
