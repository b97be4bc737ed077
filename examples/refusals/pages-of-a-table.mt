# Pages of an IOMMU region's table do not meet, and have a power of two of bytes.
region M iommu 0x1000
space S M
map M 0 0x1000 S 0 rw
map M 0x800 0x800 S 0 rw
map M 0x2000 0x1800 S 0 rw
