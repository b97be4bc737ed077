# The map of the picture in QEMU's manual, searched at its edges, and two calls that are refused and change nothing.
region A container 0x8000
region B container 0x4000
region C io 0x6000 latch
region D io 0x1000 latch
region E io 0x1000 latch
space S A
add A 0x2000 B prio 2
add A 0 C prio 1
add B 0 D
add B 0x2000 E
add A 0 D
add A 0 Q
at S 0x1fff
at S 0x2000
at S 0x3000
at S 0x4abc
at S 0x6000
