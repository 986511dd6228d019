# The files are made by examples/real.
# The accepted programs of examples/real that end, one after the other.
elf /hi hi-0.elf
elf /hello hello-medany.elf
elf /gotx gotx-pic.elf
elf /switch switch-pic.elf
elf /weak weak-pic.elf
start /hi
start /hello
start /gotx
start /switch
start /weak
quanta 0:100000
repeat 6
