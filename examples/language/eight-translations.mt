# Eight translations lead on; where a ninth would be needed the address is unassigned.
region D io 8 latch
space mem D
region M0 iommu 0x1000
space b0 M0
region M1 iommu 0x1000
space b1 M1
region M2 iommu 0x1000
space b2 M2
region M3 iommu 0x1000
space b3 M3
region M4 iommu 0x1000
space b4 M4
region M5 iommu 0x1000
space b5 M5
region M6 iommu 0x1000
space b6 M6
region M7 iommu 0x1000
space b7 M7
region M8 iommu 0x1000
space b8 M8
map M8 0 0x1000 mem 0 rw
map M7 0 0x1000 b8 0 rw
map M6 0 0x1000 b7 0 rw
map M5 0 0x1000 b6 0 rw
map M4 0 0x1000 b5 0 rw
map M3 0 0x1000 b4 0 rw
map M2 0 0x1000 b3 0 rw
map M1 0 0x1000 b2 0 rw
map M0 0 0x1000 b1 0 rw
v0 write b1 0 7b
v0 read b1 0 1
v0 read b0 0 1
v0 write b0 0 00
v0 read mem 0 1
