# An access goes on page by page; a page that does not permit it is a decode error for its part. The low bits of a translated
# address are left out.
region R ram 0x2000
region M iommu 0x10000
space mem R
space bus M
load R 0xff8 08090a0b0c0d0e0f
map M 0x1000 0x1000 mem 0 r
map M 0x2000 0x1000 mem 0x1000 w
map M 0x3000 0x1000 mem 0x1234 rw
map M 0x4000 0x1000 mem 0 none
v0 read bus 0x1ffe 4
v0 write bus 0x1ffe a1a2a3a4
v0 read mem 0xffe 4
v0 read bus 0x3000 2
v0 write bus 0x3001 b1
v0 read mem 0x1000 2
v0 read bus 0x4000 1
v0 write bus 0x4000 00
v0 read bus 0x5000 1
