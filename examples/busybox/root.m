# The root of each script of scripts/: examples/busybox/real puts its start line and its turns behind it.
memory 16384
dir /bin
flat /bin/busybox busybox.flt
flat /bin/sh busybox.flt
flat /bin/gzip busybox.flt
flat /bin/gunzip busybox.flt
flat /bin/echo busybox.flt
flat /bin/cat busybox.flt
dir /dev
file /dev/null null.txt
file /dev/zero zeros.txt
dir /etc
file /etc/passwd passwd
file /etc/group group
dir /t
dir /tmp
