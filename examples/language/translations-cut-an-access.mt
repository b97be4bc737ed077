# An access is cut where another translation is used, though both lead on in one device: a count device tells how many callbacks
# were made.
region D io 8 count valid 1-8 impl 1-8
region M iommu 0x1000
space mem D
space bus M
map M 0 4 mem 0 rw
map M 4 4 mem 4 rw
v0 read bus 0 8
v0 read mem 0 1
v0 read mem 0 8
v0 read mem 0 1
