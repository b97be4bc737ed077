# What a listener is told as it joins, as a device is put over RAM, and as a log begins.
region A container 0x10000
region R ram 0x3000
region T ram 0x1000
region W io 0x1000 latch
space S A
add A 0 R
add A 0x8000 T
listen L S
add A 0x1000 W prio 1
log T vga on
