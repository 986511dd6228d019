# figlet draws letters; it finds its font by stat.
memory 512
dir /fonts
file /fonts/standard.flf standard.flf
elf /figlet figlet.elf 32768
start /figlet -d fonts -w 60 flat files
quanta 0:1000000
repeat 100
