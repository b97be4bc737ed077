# A callback is one step on one register of three, which come again every 24 bytes: a latch is read and its bytes replaced,
# up to the register's end; a counter counts its reads, and its bytes are replaced; a bell is cleared by a read, and a write
# sets bits in it; a faulty device has no step.
region L io 0x40 latch regs 3 valid 1-8 impl 1-8 vunaligned iunaligned
region C io 0x40 count regs 3 valid 1-8 impl 1-8
region B io 0x40 bell regs 3 valid 1-8 impl 1-8 vunaligned iunaligned
region X io 0x40 fault regs 3
space l L
space c C
space b B
space x X
v0 write l 0x10 01020304
v0 read l 0x28 4
v0 write l 0x1e ddccbbaa
v0 read l 0 8
v0 write l 8 ffffffffffffffff
v0 read l 8 8
v0 read l 0 8
v0 read l 0x10 8
v0 read c 8 4
v0 read c 8 4
v0 write c 0 ff
v0 read c 0 1
v0 read c 0x18 8
v0 write b 1 3412
v0 read b 0 8
v0 read b 0 8
v0 write b 7 3412
v0 read b 0x18 8
v0 read b 8 8
v0 read x 0 1
v0 write x 0 01
