# An ioeventfd comes where its device gets it, and moves with the device; a move to where the device is changes nothing.
region A container 0x10000
region D io 0x100 latch
space S A
listen L S
add A 0x1000 D
event D 0x10 4 7 data 0x55
move D 0x2000
move D 0x2000
