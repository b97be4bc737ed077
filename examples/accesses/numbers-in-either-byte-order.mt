# The bytes 11 22 33 44 are the number 0x44332211 to a little-endian device and 0x11223344 to a big-endian one, in its
# ioeventfds and in its registers, whose lowest byte is at offset 0.
region L io 8 latch valid 1-8 impl 1-8
region B io 8 latch valid 1-8 impl 1-8 big
event L 0 4 1 data 0x44332211
event B 0 4 2 data 0x11223344
event B 0 8 3 data 0xffffffffffffffff
space l L
space b B
v0 write l 0 11223344
v0 write b 0 11223344
v0 write b 0 ffffffffffffffff
notified 1
notified 2
notified 3
v0 read l 0 4
v0 read b 0 4
unevent L 0 4 data 0x44332211
unevent B 0 4 data 0x11223344
v0 write l 0 11223344
v0 write b 0 11223344
v0 read l 0 1
v0 read b 0 1
v0 read b 0 4
v0 write b 0 0000000000000055
v0 read b 0 1
v0 read b 0 8
v0 write l 0 1122334455667788
v0 read l 7 1
v0 read l 0 8
