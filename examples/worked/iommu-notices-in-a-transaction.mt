# Watchers are told of a transaction's changes at its end, the lost parts first; and watches that are refused.
region M iommu 0x10000
region R ram 0x1000
space mem R
space bus M
watch W M 0x800 0x2fff
map M 0 0x1000 mem 0x4000 r
map M 0x2000 0x1000 mem 0 rw
unmap M 0
watch V M 0 0xffff
unwatch W
begin
unmap M 0x2000
map M 0x2000 0x1000 mem 0x8000 r
commit
watch V M 0 1
watch U M 2 1
unwatch W
