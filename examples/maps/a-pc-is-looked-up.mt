# What each address of a small PC reaches: the first and the last of each range, and of the holes between them.
machine 160M
region sys container 0x10000000000000000
region ram ram 128M
region vga io 0x20000 latch
region bios rom 256K
region isabios alias 128K bios 0x20000
space mem sys
add sys 0 ram
add sys 0xa0000 vga prio 1
add sys 0xfffc0000 bios
add sys 0xe0000 isabios prio 1
show mem
at mem 0
at mem 0x9ffff
at mem 0xa0000
at mem 0xbffff
at mem 0xc0000
at mem 0xe1234
at mem 0x100000
at mem 0x8000000
at mem 0xfffbffff
at mem 0xffffffff
at mem 0x100000000
at mem 0xffffffffffffffff
