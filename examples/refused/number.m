# A number with a leading zero.
memory 016
# The files are made by examples/refused/real.
