# Two aliases side by side show the same 4 bytes of a device: a write of 8 bytes writes them twice.
region D io 8 latch valid 1-8 impl 1-8
region A container 0x10
region P alias 4 D 0
region Q alias 4 D 0
space S A
space T D
add A 0 P
add A 4 Q
v0 write S 0 0102030405060708
v0 read T 0 8
v0 read S 2 4
