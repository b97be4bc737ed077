# The first and the last offset of a watch belong to its range.
region M iommu 0x10000
region D io 8 latch
space mem D
space bus M
watch W M 0x1000 0x1000
watch V M 0xfff 0xfff
map M 0 0x1000 mem 0 r
map M 0x1000 0x1000 mem 0 r
map M 0x2000 0x1000 mem 0 r
