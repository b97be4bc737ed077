# A fault is an error, a hole a decode error, and an access has both where it meets both; a copy has what its read or its write
# has. Bytes past the last address are a hole.
region A container 0x100
region X io 8 fault
region D io 8 latch
space S A
add A 0 X
add A 0x10 D
v0 read S 4 8
v0 write S 4 0102030405060708
v0 dma S 4 4 to S 0x10
v0 dma S 0x10 4 to S 4
v0 dma S 0x20 4 to S 0x10
v0 dma S 0 1 to S 0x20
v0 read S 0 1
v0 read Q 0 1
v0 write Q 0 00
v0 dma S 0 1 to Q 0
v0 dma P 0 1 to Q 0
v0 read S 0xffffffffffffffff 2
v0 write S 0xe a1a2a3a4
v0 read S 0xe 4
