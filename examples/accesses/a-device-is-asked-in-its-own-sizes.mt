# A device with accesses of 2 or 4 bytes that does one byte at a time, its highest first; and two that do 4 at a time. One
# whose least size is above its greatest cannot be made.
region D io 0x10 latch regs 2 valid 2-4 impl 1-1 big
region E io 8 latch impl 4-4
region F io 8 latch impl 4-4 big
space S D
space T E
space U F
v0 write S 0 0102030405060708
v0 read S 0 8
v0 read S 1 1
v0 write T 0 11223344
v0 read T 0 1
v0 write U 0 11223344
v0 read U 0 1
region G io 8 latch valid 4-2
