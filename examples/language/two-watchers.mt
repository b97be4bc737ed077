# Watchers are told in order of joining, each of its own range; the address in a notice is that of the part's first offset. A
# translation past a range, or before it, is none of its parts.
region M iommu 0x10000
region D io 8 latch
space mem D
space bus M
watch W M 0 0xffff
watch V M 0 0x17ff
map M 0x1000 0x1000 mem 0 rw
watch U M 0x1800 0x1fff
unmap M 0x1000
unwatch V
map M 0 0x1000 mem 0 w
map M 0x2000 0x1000 mem 0 rw
unmap M 0
map M 0 0x2000 mem 0x2000 r
unwatch W
