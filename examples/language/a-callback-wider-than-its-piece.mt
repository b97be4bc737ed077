# A callback of 8 bytes for a piece of 4: a write adds zero bytes after the piece's, of which those past the register are left
# out; a read keeps the first bytes in the order of addresses. In a big-endian device too.
region D io 0x10 latch regs 2 impl 8-8
region B io 8 latch impl 4-4 big
space S D
space T B
v0 write S 0 1112131415161718
v0 read S 0 8
v0 write S 4 aa
v0 read S 0 8
v0 write T 0 11223344
v0 write T 2 55
v0 read T 0 4
v0 read T 4 4
v0 read T 5 1
