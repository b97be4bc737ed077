# At most eight translations are used on the way of an access: a loop of two IOMMU regions ends with a decode error.
# QEMU follows it for ever.
region A iommu 0x1000
region B iommu 0x1000
begin
space SA A
space SB B
map A 0 0x1000 SB 0 rw
map B 0 0x1000 SA 0 rw
commit
v0 read SA 0 1
