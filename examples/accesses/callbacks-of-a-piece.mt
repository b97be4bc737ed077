# A count device tells how many callbacks it had. 4 bytes where a callback has 1 are four; 1 byte where a callback has 4 is
# one, at the last address too.
region B io 0x10 count valid 2-4 impl 1-1 big
region W io 0x10 count impl 4-4 big
region T io 0x10000000000000000 count impl 4-4 big
space b B
space w W
space t T
v0 read b 4 4
v0 read b 0 2
v0 read w 0 1
v0 read w 0 4
v0 read t 0xffffffffffffffff 1
v0 read t 0 4
