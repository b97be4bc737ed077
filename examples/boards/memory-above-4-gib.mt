# A PC with more memory than fits below its PCI hole: the first part of pc.ram shows from address 0 on, the rest from 4 GiB on. Between
# them lie the devices: PCI from 3 GiB on, the I/O APIC, the local APICs, the flash at the end of the first 4 GiB.
# (A real board of this form has gigabytes; here a piece of RAM has at most 512 MiB.)
machine 385M
region system container 0x10000000000000000
region pc.ram ram 384M
region ram-below-4g alias 256M pc.ram 0
region ram-above-4g alias 128M pc.ram 256M
region pci container 0x10000000000000000
region pci-hole alias 0x40000000 pci 0xc0000000
region pci-hole64 alias 0x800000000 pci 0x800000000
region vga.vram ram 512K
region nic.bar io 0x20000 latch
region nvme.bar io 0x4000 latch
region ioapic io 0x1000 latch
region apic-msi io 0x100000 latch
region flash rom 256K
begin
space memory system
add system 0 ram-below-4g
add system 0x100000000 ram-above-4g
add system 0xc0000000 pci-hole
add system 0x800000000 pci-hole64
add pci 0xc0000000 vga.vram
add pci 0xc1000000 nic.bar
add pci 0x800004000 nvme.bar
add system 0xfec00000 ioapic prio 1
add system 0xfee00000 apic-msi prio 1
add system 0xfffc0000 flash prio 1
commit
show memory
# the last byte below the hole, and the first above it, are neighbours in pc.ram
load pc.ram 0xfffffff a1b2
v0 read memory 0xfffffff 1
v0 read memory 0x100000000 1
v0 read memory 0xbfffffff 1
