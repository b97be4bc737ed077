# A count device tells how many callbacks an access made. 7 bytes at 0 are pieces of 4, 2 and 1; 3 bytes are 2 and 1; at 2,
# 6 bytes are 2 and 4; at 1, 7 bytes are 1, 2 and 4; 8 bytes are one piece, at 8 too.
region D io 0x10 count valid 1-8 impl 1-8
space S D
v0 read S 0 7
v0 read S 0 1
v0 read S 0 3
v0 read S 0 1
v0 read S 2 6
v0 read S 0 1
v0 read S 1 7
v0 read S 0 8
v0 read S 0 1
v0 read S 8 8
v0 read S 0 1
