# Global logging concerns memory alone: RAM, ROM and ROM devices. It shows as log=4, the migration client's bit.
# QEMU sets the bit for IOMMU regions too.
region sys container 0x10000
region mem ram 0x1000
region table iommu 0x1000
region dev io 0x1000 latch
begin
space S sys
add sys 0 mem
add sys 0x1000 table
add sys 0x2000 dev
global on
commit
show S
