machine 129M
region system container 0x10000000000000000
region pc.ram ram 128M
region ram-below-4g alias 128M pc.ram 0
region pci container 0x10000000000000000
region vga-lowmem io 0x20000 latch
region pc.bios rom 256K
region apic-msi io 0x100000 latch
space memory system
begin
add system 0 ram-below-4g
add system 0 pci prio -1
add pci 0xa0000 vga-lowmem prio 1
add pci 0xfffc0000 pc.bios
add system 0xfee00000 apic-msi prio 4096
commit
show memory
at memory 0xa0000
