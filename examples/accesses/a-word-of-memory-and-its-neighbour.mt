# 8 bytes replace one word of memory and leave the next as it was; a device is not changed by what memory is given.
region R ram 0x1000
region D io 8 latch
space S R
space T D
v0 write S 8 8877665544332211
v0 read S 8 8
v0 read S 16 8
v0 read T 0 4
v0 enter
v0 write S 0xff8 ffffffffffffffff
v0 read S 0xff8 8
v0 leave
