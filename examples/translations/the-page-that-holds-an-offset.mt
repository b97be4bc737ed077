# An offset goes by the translation whose page holds it: here pages of 16 and of 64 bytes.
region R ram 0x1000
region M iommu 0x100
space mem R
space bus M
map M 0x10 0x10 mem 0 rw
map M 0x40 0x40 mem 0x100 rw
load R 0 11
load R 0xf 12
load R 0x13f 13
v0 read bus 0 1
v0 read bus 0xf 1
v0 read bus 0x10 1
v0 read bus 0x1f 1
v0 read bus 0x20 1
v0 read bus 0x7f 1
v0 read bus 0x80 1
v0 read bus 0xffffffffffffffff 1
