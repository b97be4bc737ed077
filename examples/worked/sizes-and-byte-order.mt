# A device's valid and implemented sizes, and its byte order.
region D io 0x10 latch regs 2 valid 2-4 impl 1-1 big
region E io 8 latch impl 4-4 big
space S D
space T E
v0 write S 0 0102030405060708
v0 read S 0 8
v0 read S 1 1
v0 write T 0 11223344
v0 read T 0 1
region F io 8 latch valid 4-2
