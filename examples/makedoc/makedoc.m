# The files are made by examples/makedoc/real.
# Newlib's makedoc makes a page of the manual from the comments of a source file.
file /doc.str doc.str
stdin qsort.c
elf /makedoc makedoc.elf 16384
start /makedoc -f doc.str
quanta 0:1000000
repeat 100
