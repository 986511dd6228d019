# The files are made by examples/romfs/real.
# A root with names of 1, 15, 16, 127 and 255 bytes, an empty folder, and files of no bytes, some bytes and some pages.
elf /tree tree.elf 16384
dir /empty
dir /etc
file /etc/motd motd.txt
file /etc/nothing nothing.txt
file /a motd.txt
file /fifteen-bytes.t motd.txt
file /sixteen-bytes.tx pages.txt
file /name-of-127-bytes-nnnnnnnnnnnnnnnnnnnnnnnnnnnnnnnnnnnnnnnnnnnnnnnnnnnnnnnnnnnnnnnnnnnnnnnnnnnnnnnnnnnnnnnnnnnnnnnnnnnnnnnnnnnnn motd.txt
file /name-of-255-bytes-nnnnnnnnnnnnnnnnnnnnnnnnnnnnnnnnnnnnnnnnnnnnnnnnnnnnnnnnnnnnnnnnnnnnnnnnnnnnnnnnnnnnnnnnnnnnnnnnnnnnnnnnnnnnnnnnnnnnnnnnnnnnnnnnnnnnnnnnnnnnnnnnnnnnnnnnnnnnnnnnnnnnnnnnnnnnnnnnnnnnnnnnnnnnnnnnnnnnnnnnnnnnnnnnnnnnnnnnnnnnnnnnnnnnnnnnnnnnn motd.txt
dir /folder-of-16-byt
dir /folder-of-16-byt/b
file /folder-of-16-byt/b/pages pages.txt
flat /folder-of-16-byt/b/tree tree.flt
file /last motd.txt
