# A change by a virtual CPU tells no watcher, nor do the lines of a pass, `par` and `end`; the next line of the desk does,
# also one that is refused.
region M iommu 0x10000
region D io 8 latch
space mem D
space bus M
watch W M 0 0xffff
v0 do map M 0 0x1000 mem 0x4000 rw
v0 enter
v0 read mem 0 1
v0 write mem 0 01
v0 dma mem 0 1 to mem 1
v0 leave
par
end
commit
unwatch W
