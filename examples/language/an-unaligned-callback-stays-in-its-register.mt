# A callback of 8 bytes at offset 1 touches register 0 alone: its last byte would lie past the register, so it is not
# written, and reads 0. A bell's bits past its register are left out too.
region L io 0x10 latch regs 2 valid 1-8 impl 1-8 vunaligned iunaligned
region B io 0x10 bell regs 2 valid 1-8 impl 1-8 vunaligned iunaligned
space S L
space T B
v0 write S 1 0102030405060708
v0 read S 0 8
v0 read S 8 8
v0 read S 1 8
v0 write T 6 01ff020304050607
v0 read T 8 8
v0 read T 0 8
v0 read T 0 8
