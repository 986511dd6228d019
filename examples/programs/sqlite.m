# sqlite's shell with a database in memory, and statements from a file.
memory 2048
file /fruit.sql fruit.sql
elf /sqlite sqlite.elf 131072
start /sqlite -init fruit.sql :memory:
quanta 0:1000000
repeat 200
