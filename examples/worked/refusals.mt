# A refused call for nearly each reason.
region A container 0x1000
region A container 0x1000
region X alias 0x1000 A 0
region D io 0x100 latch
region R ram 0x1001
space S A
add Q 0 D
add X 0 D
del A D
add A 0 D
add A 0 D
romd D on
drop A
region M iommu 0x10000
map M 0 0x1000 S 0 rw
map M 0x800 0x800 S 0 r
map M 0x2000 0x1800 S 0 r
event D 0 4 1
event D 0 4 2
unlisten L
