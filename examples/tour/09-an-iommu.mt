# A device behind an IOMMU has an address space of its own, in which each access goes on where a translation says. A watcher is told how
# the translations of a range change. Writes to memory that is logged mark its pages.
region board container 0x10000
region ram ram 0x4000
region iommu iommu 0x10000
begin
space memory board
space bus iommu
add board 0 ram
log ram migration on
commit
watch vfio iommu 0 0xffff
map iommu 0x1000 0x1000 memory 0x3000 rw
v0 write bus 0x1000 c0ffee
v0 read memory 0x3000 3
dirty ram migration
unmap iommu 0x1000
v0 read bus 0x1000 1
