# A PC's low memory: RAM, the window on VGA memory, and the BIOS in both its places.
machine 160M
region sys container 0x10000000000000000
region pci container 0x10000000000000000
region ram ram 128M
region lowram alias 128M ram 0
region vga io 0x20000 latch
region vgawin alias 0x20000 pci 0xa0000
region bios rom 256K
region isabios alias 128K bios 0x20000
space mem sys
begin
add sys 0 pci prio -1
add sys 0 lowram
add pci 0xa0000 vga
add sys 0xa0000 vgawin prio 1
add pci 0xfffc0000 bios
add sys 0xe0000 isabios prio 1
commit
show mem
