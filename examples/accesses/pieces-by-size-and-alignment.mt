# An access to a device is cut into pieces; an ioeventfd of just a piece's offset and size takes it. 7 bytes at 1 are pieces
# of 1, 2 and 4; 3 bytes at 0 are 2 and 1; 8 bytes are two of the greatest valid size, 4; a piece below the least valid
# size is no good. Where callbacks may be unaligned and the guest may not, pieces that are not aligned are no good; where
# both may, 6 bytes at 3 are 4 and 2.
region P io 0x10000000000000000 latch
event P 0 4 1
event P 1 1 2
event P 2 2 3
event P 4 4 4
event P 0 2 5
event P 2 1 6
event P 0xfffffffffffffffc 4 7
space p P
v0 write p 0 ffffffff
notified 1
v0 write p 1 ffffffffffffff
notified 2
notified 3
notified 4
v0 write p 0 ffffff
notified 5
notified 6
v0 write p 0xfffffffffffffffc ffffffff
notified 7
v0 read p 0 8
region N io 0x10 latch valid 2-4 impl 1-1 big
event N 0 4 8
event N 4 4 9
space n N
v0 write n 0 ffffffffffffffff
notified 8
notified 9
v0 read n 1 1
v0 write n 1 ff
region L io 0x10 latch iunaligned
event L 3 4 10
event L 7 2 11
space l L
v0 write l 3 ffffffffffff
v0 read l 3 6
notified 10
notified 11
region U io 0x10 latch vunaligned iunaligned
event U 3 4 12
event U 7 2 13
space u U
v0 write u 3 ffffffffffff
notified 12
notified 13
