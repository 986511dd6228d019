# A path without its slash.
dir etc
# The files are made by examples/refused/real.
