# A callback that begins in a register and goes on past it has the bytes of that register, and zeros after them.
region L io 8 latch valid 1-8 impl 1-8 vunaligned iunaligned
space l L
v0 write l 0 1122334455667788
v0 read l 0 8
v0 read l 1 2
region M io 0x10 latch valid 1-8 impl 1-8 vunaligned iunaligned
space m M
v0 write m 0 1122334455667788
v0 read m 6 4
