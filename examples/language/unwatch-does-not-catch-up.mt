# A watcher that leaves is told that the parts which it was told are gone, also where virtual CPUs changed the table since. A
# region of another kind may be watched: it has no parts.
region M iommu 0x10000
region D io 8 latch
space mem D
space bus M
watch W M 0 0xffff
watch X D 0 7
map M 0 0x1000 mem 0 rw
v0 do unmap M 0
v0 do map M 0x1000 0x1000 mem 0 r
unwatch W
watch V M 0 0xffff
unwatch X
