# How each kind of leaf and each flag is printed.
region A container 0x10000
region R ram 0x1000
region O rom 0x1000
region F romdev 0x1000 latch
region V reserve 0x1000
region M iommu 0x1000
begin
space S A
add A 0 R
add A 0x1000 O
add A 0x2000 F
add A 0x3000 V
add A 0x4000 M
nonvolatile R on
readonly F on
unmergeable R on
unmergeable F on
log R code on
log O migration on
commit
show S
at S 0x4ff0
at S 0x5000
v0 read S 0x3000 2
v0 write S 0x1000 aa
