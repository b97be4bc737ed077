# An alias that is given another offset shows another range at the same addresses.
machine 64K
region A container 0x1000
region R ram 0x4000
region W alias 0x1000 R 0x1000
add A 0 W
space S A
listen L S
retarget W 0x2000
