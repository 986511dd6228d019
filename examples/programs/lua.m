# Lua's interpreter, with a program of tables, closures, coroutines, patterns and files.
memory 1024
file /words.lua words.lua
file /poem.txt poem.txt
elf /lua lua.elf 65536
start /lua words.lua poem.txt
quanta 0:1000000
repeat 100
