# The address of a live ioeventfd is that of its first byte, also where only later ones are shown. One without data takes any
# value. A value that its size can't hold never fits.
region D io 0x100 latch
region A container 0x10
region P alias 4 D 2
space S A
add A 0 P
event D 0 4 5
event D 0 4 6 data 0x7
event D 4 1 7 data 0x1ff
listen L S
v0 write S 2 ff
notified 7
unevent D 0 4 data 7
unlisten L
