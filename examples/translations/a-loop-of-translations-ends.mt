# A translation that leads back to itself ends after eight: the address is unassigned.
region M iommu 0x10000
space bus M
map M 0 0x1000 bus 0 rw
v0 read bus 0 1
v0 write bus 0 01
