# What a watcher of an IOMMU region's table is told: of each translation the part in its range, as it joins and as it leaves too.
region M iommu 0x10000
region R ram 0x1000
space mem R
space bus M
watch W M 0x800 0x2fff
map M 0 0x1000 mem 0x4000 r
map M 0x2000 0x1000 mem 0 rw
unmap M 0
watch V M 0 0xffff
unwatch W
