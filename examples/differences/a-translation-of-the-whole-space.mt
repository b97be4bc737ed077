# A translation may be of all 2^64 addresses.
# QEMU hangs or aborts on such an entry.
region table iommu 0x10000000000000000
region mem ram 0x1000
load mem 0x10 7f
begin
space memory mem
space bus table
map table 0 0x10000000000000000 memory 0 r
commit
v0 read bus 0x10 1
