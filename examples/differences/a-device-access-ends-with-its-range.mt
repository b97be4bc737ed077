# The PCI ports of a PC: the address register at 0xcf8 takes 4 bytes, and one byte at 0xcf9, of higher priority, is the reset register.
# A write of 4 bytes to 0xcf8 is cut at the ends of the ranges: it reaches the PCI device in two pieces, and the reset register with the
# byte between them. In QEMU the PCI device takes all four bytes by one callback, which a real PC depends on.
# Each register tells at the end what arrived there last.
region io container 0x10000
region pci io 8 latch
region reset io 1 latch
begin
space S io
add io 0xcf8 pci
add io 0xcf9 reset prio 1
commit
show S
v0 write S 0xcf8 10080080
v0 read S 0xcf9 1
v0 read S 0xcf8 1
v0 read S 0xcfa 2
