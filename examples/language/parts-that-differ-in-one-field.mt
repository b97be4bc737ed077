# A watcher is told where the first offset, the last, the space, the address or the permission differs, and nothing where none
# does.
region M iommu 0x10000
region D io 8 latch
space mem D
space bus M
watch W M 0 0xffff
map M 0x1000 0x1000 mem 0x4000 rw
begin
unmap M 0x1000
map M 0 0x2000 mem 0x4000 rw
commit
begin
unmap M 0
map M 0 0x1000 mem 0x4000 rw
commit
begin
unmap M 0
map M 0 0x1000 bus 0x4000 rw
commit
begin
unmap M 0
map M 0 0x1000 bus 0x5000 rw
commit
begin
unmap M 0
map M 0 0x1000 bus 0x5000 w
commit
begin
unmap M 0
map M 0 0x1000 bus 0x5000 w
commit
begin
unmap M 0
map M 0 0x1000 bus 0x5000 none
commit
begin
unmap M 0
map M 0 0x1000 bus 0x5000 r
commit
