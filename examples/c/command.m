memory 256
dir /bin
elf /bin/sh shell.elf 8192
elf /command command.elf 8192
elf /lines lines.elf 8192
elf /match match.elf 8192
elf /wc wc.elf 8192
file /poem.txt poem.txt
start /command
quanta 0:1000 1:700 2:300
repeat 10000
