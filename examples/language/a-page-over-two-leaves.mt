# An access is cut where the leaf changes inside one page of a translation.
region D io 8 latch valid 1-8 impl 1-8
region E io 8 latch valid 1-8 impl 1-8
region A container 0x1000
region P alias 4 D 0
region Q alias 4 E 4
region M iommu 0x1000
begin
space S A
space T D
space U E
space B M
add A 0 P
add A 4 Q
map M 0 0x1000 S 0 rw
commit
v0 write B 0 0102030405060708
v0 read T 0 8
v0 read U 0 8
