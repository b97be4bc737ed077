# A device over an IOMMU region whose translation leads to a bus, over one whose translation leads to memory, and lets reads
# through: from each space, over each end of a page, and past the end of all.
region R ram 0x2000
region M iommu 0x10000
region N iommu 0x10000
space mem R
space bus M
space dev N
map N 0x1000 0x1000 bus 0x3000 rw
map M 0x3000 0x1000 mem 0 r
load R 0 0102030405060708
load R 0x10 a1a2a3a4
load R 0xff0 101112131415161718191a1b1c1d1e1f
load R 0x1ff8 2021222324252627
v0 read dev 0x1010 4
v0 read bus 0x3010 4
v0 read mem 0x10 4
v0 read dev 0x1ff0 32
v0 write dev 0x1010 ff
v0 write dev 0x1ff0 ffffffffffffffffffffffffffffffffffffffffffffffffffffffffffffffff
v0 read dev 0xff8 16
v0 read dev 0x2000 32
v0 read dev 0xfff0 32
v0 read dev 0x10000 8
v0 read mem 0x1ff8 16
v0 read nobody 0 8
v0 read mem 0xffffffffffffffff 1
v0 read mem 0xff0 16
