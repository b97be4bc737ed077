machine 0x41000
region system container 0x10000000000000000
region pci container 0x10000000000000000
region vga-lowmem io 0x20000 latch
region pc.bios rom 0x40000
region apic-msi io 0x100000 latch
region pc.ram io 0x100000000 latch # memory
region ram-below-4g alias 0xc0000000 pc.ram 0x0
region smram-region alias 0x20000 pci 0xa0000
region ram-above-4g alias 0x40000000 pc.ram 0xc0000000
space memory system
begin
add system 0x100000000 ram-above-4g
add system 0xfee00000 apic-msi prio 4096
add system 0xa0000 smram-region prio 1
add system 0x0 pci prio -1
add system 0x0 ram-below-4g
add pci 0xfffc0000 pc.bios
add pci 0xa0000 vga-lowmem prio 1
commit
show memory
