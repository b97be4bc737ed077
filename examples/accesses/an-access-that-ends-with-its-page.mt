# Two pages of a translation lead to two parts of one device. A write of 8 bytes that ends with the last byte of a page is one piece, which an
# ioeventfd of 8 bytes takes; one that goes on past it is cut there. In QEMU's way it is so too, which does not cut a device's piece at the end
# of a range.
region D io 0x4000 latch valid 1-8 impl 1-8 vunaligned iunaligned
region M iommu 0x2000
space T D
space bus M
map M 0 0x1000 T 0 rw
map M 0x1000 0x1000 T 0x3000 rw
event D 0xff8 8 3
event D 0xffc 4 4
event D 0x3000 4 5
v0 write bus 0xff8 ffffffffffffffff
notified 3
v0 write bus 0xffc ffffffffffffffff
notified 3
notified 4
notified 5
