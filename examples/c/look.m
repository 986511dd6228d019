elf /look look.elf 16384
file /poem.txt poem.txt
start /look
quanta 0:1000000
