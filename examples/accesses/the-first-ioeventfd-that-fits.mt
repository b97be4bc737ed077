# A write is taken by the first ioeventfd of its offset, its size and its value, where one without a value stands before
# those with one; a write that none fits reaches the device.
region D io 0x100 latch regs 3 valid 1-8 impl 1-8
event D 16 4 6 data 7
event D 8 4 4 data 5
event D 0 4 1 data 9
event D 8 2 2
event D 16 4 5
event D 8 4 3 data 1
space S D
v0 write S 8 05000000
notified 4
v0 write S 8 06000000
v0 read S 8 4
v0 write S 8 4d00
notified 2
v0 write S 16 07000000
notified 5
notified 6
v0 write S 16 0700000000000000
v0 read S 16 8
v0 write S 4 09000000
v0 read S 0 8
v0 write S 0 09000000
notified 1
notified 3
v0 read S 0 8
