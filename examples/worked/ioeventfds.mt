# An ioeventfd moves with its device: what a listener is told, and which write sets it.
region A container 0x10000
region D io 0x100 latch
space S A
add A 0x1000 D
listen L S
event D 0x10 4 7 data 0x55
move D 0x2000
v0 write S 0x2010 55000000
notified 7
v0 write S 0x2010 66000000
v0 read S 0x2010 4
notified 7
