# The files are made by examples/c/real: each .elf of the .c or .cc of its name.
# 200,000 bytes go through a pipe, by turns of 1,000 events. feed7.m and feed1.m give the same by shorter turns.
elf /feed feed.elf 8192
start /feed
quanta 0:1000 1:1000
repeat 10000
