# A virtio device behind an IOMMU: the guest maps two pages for it, one with the ring and one with a buffer, and rings its doorbell. The
# device reads a descriptor of the ring, reads the buffer that it names, and writes the used index; all at the bus's addresses.
machine 16M
region system container 0x10000000000000000
region ram ram 8M
region virtio io 0x1000 bell
region iommu iommu 0x10000000000000000
begin
space memory system
space bus iommu
add system 0 ram
add system 0xfe000000 virtio
event virtio 0 2 7
commit
# the ring is at 0x100000 in memory, its descriptor names the bus address 0x2000 and 8 bytes; the buffer is at 0x300000
load ram 0x100000 00200000000000000800000000000000
load ram 0x300000 6465736372697074
watch vhost iommu 0 0xffff
map iommu 0x1000 0x1000 memory 0x100000 rw
map iommu 0x2000 0x1000 memory 0x300000 r
# the guest writes the doorbell: an ioeventfd is set in place of the device
v0 write memory 0xfe000000 0000
notified 7
# the device's side of it
v1 read bus 0x1000 16
v1 read bus 0x2000 8
v1 write bus 0x1800 0100
v1 read bus 0x1800 2
# it may not write the buffer, and what is not mapped it does not reach
v1 write bus 0x2000 ff
v1 read bus 0x5000 1
# the guest takes the buffer away again
unmap iommu 0x2000
v1 read bus 0x2000 1
