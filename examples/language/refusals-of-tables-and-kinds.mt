# Refusals that name an offset (of a translation, of an ioeventfd), a space that uses a region, and calls on a wrong kind.
region D io 0x100 latch
region M iommu 0x10000
region R ram 0x1000
space S R
unmap M 0x5000
unevent D 0x24 4
drop R
commit
load R 0xfff aabb
load D 0 aa
dirty M vga
resize R 0x2000
retarget M 0
map D 0 1 S 0 rw
event M 0 4 1
log D vga on
event D 0 3 1
resize D 0
move D 0
romd R on
unevent R 0x30 4
unmap R 0x1000
map M 0 0 S 0 rw
