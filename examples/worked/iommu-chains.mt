# An access through two IOMMU regions, permissions on the way, a table that leads back to itself, and a pass that keeps its tables.
region R ram 0x2000
region M iommu 0x10000
region N iommu 0x10000
space mem R
space bus M
space dev N
load R 0x10 a1a2a3a4
map N 0x1000 0x1000 bus 0x3000 rw
map M 0x3000 0x1000 mem 0 r
v0 read dev 0x1010 4
v0 write dev 0x1010 ff
map M 0 0x1000 bus 0 rw
v0 read bus 0 1
v0 enter
unmap M 0x3000
v0 read dev 0x1010 4
v0 leave
v0 read dev 0x1010 4
