# A device with children answers itself where none of them does.
region A container 0x8000
region B io 0x4000 latch
region C io 0x6000 latch
region D io 0x1000 latch
region E io 0x1000 latch
add A 0x2000 B prio 2
add A 0 C prio 1
add B 0 D
add B 0x2000 E
space S A
show S
