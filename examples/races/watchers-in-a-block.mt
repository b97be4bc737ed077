# What watchers of an IOMMU region are told while a virtual CPU is entered in the map from before.
machine 64K
region M iommu 0x10000
region R ram 0x1000
space mem R
space bus M
map M 0 0x1000 mem 0 rw
load R 0 5a
v0 enter
par
watch W M 0x800 0x2fff
map M 0x2000 0x1000 mem 0 r
unmap M 0
watch V M 0 0xffff
unwatch W
v0 read bus 0 1
v0 read bus 0x2000 1
end
v0 leave
v0 read bus 0 1
v0 read bus 0x2000 1
