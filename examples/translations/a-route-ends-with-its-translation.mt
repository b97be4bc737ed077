# An access over the border of two translations that lead to memory side by side is two; of a write the first lets nothing
# through.
region R ram 0x2000
region M iommu 0x10000
space mem R
space bus M
map M 0x3000 0x1000 mem 0 r
map M 0x4000 0x1000 mem 0x1000 rw
load R 0xff8 0102030405060708090a0b0c0d0e0f10
v0 read bus 0x3ff8 16
v0 read bus 0x4000 16
v0 write bus 0x3ff8 ffffffffffffffff1112131415161718
v0 read mem 0xff8 16
