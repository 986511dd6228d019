# A line that stands once.
memory 16
memory 32
# The files are made by examples/refused/real.
