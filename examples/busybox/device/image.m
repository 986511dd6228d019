# The device's root: BusyBox by its three names, and a program of examples/c. The files are made by `make device`.
dir /bin
flat /bin/busybox busybox.flt
flat /bin/sh busybox.flt
flat /bin/hello hello.flt
dir /sbin
flat /sbin/init busybox.flt
dir /dev
dir /etc
dir /etc/init.d
file /etc/inittab inittab
file /etc/init.d/rcS rcS
file /etc/passwd passwd
file /etc/group group
file /etc/motd motd
dir /proc
dir /tmp
