# The device in the machine: the image as its root, and rcS as init runs it.
memory 16384
root device.img
start /bin/sh /etc/init.d/rcS
quanta 0:20000 1:20000 2:20000 3:20000 4:20000 5:20000 6:20000 7:20000
repeat 1000000
