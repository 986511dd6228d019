# Two programs by turns, of which the second strays. hello.elf is made of hello.c, and stray.elf of stray.c.
elf /hello hello.elf 8192
elf /stray stray.elf 8192
start /hello one two
start /stray
quanta 0:400 1:400
repeat 100
