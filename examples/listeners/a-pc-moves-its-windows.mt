# The PC of machines/seq-qt-bars, whose firmware and a test move its PCI windows, with a listener of its memory: each change tells what
# went, what came and what stayed, and what was told gives the ranges that are shown.
machine 0x4262000
region system container 0x10000000000000000
region apic-msi io 0x100000 latch vunaligned
region pc.ram ram 0x4000000
region pam-ram alias 0x4000 pc.ram 0xec000
region pam-pci alias 0x4000 pc.ram 0xec000
region pam-rom alias 0x4000 pc.ram 0xec000
region pci container 0x10000000000000000
region pam-pci.2 alias 0x4000 pci 0xec000
region pc.rom rom 0x20000
region pc.bios rom 0x40000
region isa-bios alias 0x20000 pc.bios 0x20000
region pam-ram.2 alias 0x4000 pc.ram 0xe8000
region pam-pci.3 alias 0x4000 pc.ram 0xe8000
region pam-rom.2 alias 0x4000 pc.ram 0xe8000
region pam-pci.4 alias 0x4000 pci 0xe8000
region pam-ram.3 alias 0x4000 pc.ram 0xe4000
region pam-pci.5 alias 0x4000 pc.ram 0xe4000
region pam-rom.3 alias 0x4000 pc.ram 0xe4000
region pam-pci.6 alias 0x4000 pci 0xe4000
region pam-ram.4 alias 0x4000 pc.ram 0xe0000
region pam-pci.7 alias 0x4000 pc.ram 0xe0000
region pam-rom.4 alias 0x4000 pc.ram 0xe0000
region pam-pci.8 alias 0x4000 pci 0xe0000
region pam-ram.5 alias 0x4000 pc.ram 0xdc000
region pam-pci.9 alias 0x4000 pc.ram 0xdc000
region pam-rom.5 alias 0x4000 pc.ram 0xdc000
region pam-pci.10 alias 0x4000 pci 0xdc000
region pam-ram.6 alias 0x4000 pc.ram 0xd8000
region pam-pci.11 alias 0x4000 pc.ram 0xd8000
region pam-rom.6 alias 0x4000 pc.ram 0xd8000
region pam-pci.12 alias 0x4000 pci 0xd8000
region pam-ram.7 alias 0x4000 pc.ram 0xd4000
region pam-pci.13 alias 0x4000 pc.ram 0xd4000
region pam-rom.7 alias 0x4000 pc.ram 0xd4000
region pam-pci.14 alias 0x4000 pci 0xd4000
region pam-ram.8 alias 0x4000 pc.ram 0xd0000
region pam-pci.15 alias 0x4000 pc.ram 0xd0000
region pam-rom.8 alias 0x4000 pc.ram 0xd0000
region pam-pci.16 alias 0x4000 pci 0xd0000
region pam-ram.9 alias 0x4000 pc.ram 0xcc000
region pam-pci.17 alias 0x4000 pc.ram 0xcc000
region pam-rom.9 alias 0x4000 pc.ram 0xcc000
region pam-pci.18 alias 0x4000 pci 0xcc000
region pam-ram.10 alias 0x4000 pc.ram 0xc8000
region pam-pci.19 alias 0x4000 pc.ram 0xc8000
region pam-rom.10 alias 0x4000 pc.ram 0xc8000
region pam-pci.20 alias 0x4000 pci 0xc8000
region pam-ram.11 alias 0x4000 pc.ram 0xc4000
region pam-pci.21 alias 0x4000 pc.ram 0xc4000
region pam-rom.11 alias 0x4000 pc.ram 0xc4000
region pam-pci.22 alias 0x4000 pci 0xc4000
region pam-ram.12 alias 0x4000 pc.ram 0xc0000
region pam-pci.23 alias 0x4000 pc.ram 0xc0000
region pam-rom.12 alias 0x4000 pc.ram 0xc0000
region pam-pci.24 alias 0x4000 pci 0xc0000
region pam-ram.13 alias 0x10000 pc.ram 0xf0000
region pam-pci.25 alias 0x10000 pc.ram 0xf0000
region pam-rom.13 alias 0x10000 pc.ram 0xf0000
region pam-pci.26 alias 0x10000 pci 0xf0000
region smram-region alias 0x20000 pci 0xa0000
region hpet io 0x400 latch vunaligned
region ioapic io 0x1000 latch vunaligned
region ram-below-4g alias 0x4000000 pc.ram 0x0
region io io 0x10000 latch
region piix3-reset-control io 0x1 latch vunaligned
region acpi-cpu-hotplug io 0x20 latch vunaligned
region acpi-pci-hotplug io 0x18 latch vunaligned
region acpi-gpe0 io 0x4 latch vunaligned
region piix4-pm container 0x40
region acpi-cnt io 0x2 latch vunaligned
region acpi-evt io 0x4 latch vunaligned
region acpi-tmr io 0x4 latch vunaligned
region pm-smbus io 0x40 latch vunaligned
region apm-io io 0x2 latch vunaligned
region ide io 0x1 latch
region ide.2 io 0x8 latch
region ide.3 io 0x1 latch
region ide.4 io 0x8 latch
region port92 io 0x1 latch vunaligned
region vmport io 0x1 latch vunaligned
region i8042-cmd io 0x1 latch vunaligned
region i8042-data io 0x1 latch vunaligned
region fdc io 0x1 latch vunaligned
region fdc.2 io 0x5 latch vunaligned
region serial io 0x8 latch vunaligned
region pcspk io 0x1 latch vunaligned
region pit io 0x4 latch vunaligned
region rtc io 0x2 latch vunaligned
region rtc-index io 0x1 latch vunaligned
region ioportF0 io 0x1 latch
region ioport80 io 0x1 latch
region elcr io 0x1 latch vunaligned
region pic io 0x2 latch vunaligned
region elcr.2 io 0x1 latch vunaligned
region pic.2 io 0x2 latch vunaligned
region dma-cont io 0x10 latch
region dma-page io 0x1 latch
region dma-page.2 io 0x3 latch
region dma-chan io 0x10 latch
region dma-cont.2 io 0x8 latch vunaligned
region dma-page.3 io 0x1 latch vunaligned
region dma-page.4 io 0x3 latch vunaligned
region dma-chan.2 io 0x8 latch vunaligned
region pci-conf-data io 0x4 latch vunaligned
region pci-conf-idx io 0x4 latch vunaligned
region fwcfg.dma io 0x8 latch vunaligned
region fwcfg io 0x2 latch vunaligned
region kvmvapic io 0x2 latch vunaligned
region memory container 0x10000000000000000
region smram.2 container 0x100000000
region smram alias 0x100000000 smram.2 0x0
region smram-low alias 0x20000 pc.ram 0xa0000
region memory.2 alias 0x10000000000000000 system 0x0
region bus_master_container container 0x10000000000000000
region bus_master alias 0x10000000000000000 system 0x0
region bus_master_container.2 container 0x10000000000000000
region bus_master.2 alias 0x10000000000000000 system 0x0
region bus_master_container.3 container 0x10000000000000000
region bus_master.3 alias 0x10000000000000000 system 0x0
region bus_master_container.4 container 0x10000000000000000
region bus_master.4 alias 0x10000000000000000 system 0x0
region bus_master_container.5 container 0x10000000000000000
region bus_master.5 alias 0x10000000000000000 system 0x0
region bus_master_container.6 container 0x10000000000000000
region bus_master.6 alias 0x10000000000000000 system 0x0
begin
add system 0xfee00000 apic-msi prio 4096
add system 0xa0000 smram-region prio 1
add system 0xf0000 pam-pci.26 prio 1
add system 0xf0000 pam-rom.13 prio 1
add system 0xf0000 pam-pci.25 prio 1
add system 0xf0000 pam-ram.13 prio 1
add system 0xc0000 pam-pci.24 prio 1
add system 0xc0000 pam-rom.12 prio 1
add system 0xc0000 pam-pci.23 prio 1
add system 0xc0000 pam-ram.12 prio 1
add system 0xc4000 pam-pci.22 prio 1
add system 0xc4000 pam-rom.11 prio 1
add system 0xc4000 pam-pci.21 prio 1
add system 0xc4000 pam-ram.11 prio 1
add system 0xc8000 pam-pci.20 prio 1
add system 0xc8000 pam-rom.10 prio 1
add system 0xc8000 pam-pci.19 prio 1
add system 0xc8000 pam-ram.10 prio 1
add system 0xcc000 pam-pci.18 prio 1
add system 0xcc000 pam-rom.9 prio 1
add system 0xcc000 pam-pci.17 prio 1
add system 0xcc000 pam-ram.9 prio 1
add system 0xd0000 pam-pci.16 prio 1
add system 0xd0000 pam-rom.8 prio 1
add system 0xd0000 pam-pci.15 prio 1
add system 0xd0000 pam-ram.8 prio 1
add system 0xd4000 pam-pci.14 prio 1
add system 0xd4000 pam-rom.7 prio 1
add system 0xd4000 pam-pci.13 prio 1
add system 0xd4000 pam-ram.7 prio 1
add system 0xd8000 pam-pci.12 prio 1
add system 0xd8000 pam-rom.6 prio 1
add system 0xd8000 pam-pci.11 prio 1
add system 0xd8000 pam-ram.6 prio 1
add system 0xdc000 pam-pci.10 prio 1
add system 0xdc000 pam-rom.5 prio 1
add system 0xdc000 pam-pci.9 prio 1
add system 0xdc000 pam-ram.5 prio 1
add system 0xe0000 pam-pci.8 prio 1
add system 0xe0000 pam-rom.4 prio 1
add system 0xe0000 pam-pci.7 prio 1
add system 0xe0000 pam-ram.4 prio 1
add system 0xe4000 pam-pci.6 prio 1
add system 0xe4000 pam-rom.3 prio 1
add system 0xe4000 pam-pci.5 prio 1
add system 0xe4000 pam-ram.3 prio 1
add system 0xe8000 pam-pci.4 prio 1
add system 0xe8000 pam-rom.2 prio 1
add system 0xe8000 pam-pci.3 prio 1
add system 0xe8000 pam-ram.2 prio 1
add system 0xec000 pam-pci.2 prio 1
add system 0xec000 pam-rom prio 1
add system 0xec000 pam-pci prio 1
add system 0xec000 pam-ram prio 1
add system 0x0 ram-below-4g
add system 0xfec00000 ioapic
add system 0xfed00000 hpet
add system 0x0 pci prio -1
add pci 0xe0000 isa-bios prio 1
add pci 0xc0000 pc.rom prio 1
add pci 0xfffc0000 pc.bios
add io 0xcf9 piix3-reset-control prio 1
add io 0x7e kvmvapic
add io 0x510 fwcfg
add io 0x514 fwcfg.dma
add io 0xcf8 pci-conf-idx
add io 0xcfc pci-conf-data
add io 0x0 dma-chan.2
add io 0x81 dma-page.4
add io 0x87 dma-page.3
add io 0x8 dma-cont.2
add io 0xc0 dma-chan
add io 0x89 dma-page.2
add io 0x8f dma-page
add io 0xd0 dma-cont
add io 0x20 pic.2
add io 0x4d0 elcr.2
add io 0xa0 pic
add io 0x4d1 elcr
add io 0x80 ioport80
add io 0xf0 ioportF0
add io 0x70 rtc
add io 0x40 pit
add io 0x61 pcspk
add io 0x3f8 serial
add io 0x3f1 fdc.2
add io 0x3f7 fdc
add io 0x60 i8042-data
add io 0x64 i8042-cmd
add io 0x5658 vmport
add io 0x92 port92
add io 0x1f0 ide.4
add io 0x3f6 ide.3
add io 0x170 ide.2
add io 0x376 ide
add io 0xb2 apm-io
add io 0xb100 pm-smbus
add io 0x0 piix4-pm
add io 0xafe0 acpi-gpe0
add io 0xae00 acpi-pci-hotplug
add io 0xaf00 acpi-cpu-hotplug
add piix4-pm 0x8 acpi-tmr
add piix4-pm 0x0 acpi-evt
add piix4-pm 0x4 acpi-cnt
add rtc 0x0 rtc-index
add memory 0x0 smram prio 1
add memory 0x0 memory.2
add smram.2 0xa0000 smram-low
add bus_master_container 0x0 bus_master
add bus_master_container.2 0x0 bus_master.2
add bus_master_container.3 0x0 bus_master.3
add bus_master_container.4 0x0 bus_master.4
add bus_master_container.5 0x0 bus_master.5
add bus_master_container.6 0x0 bus_master.6
disable pam-ram
log pc.ram code on
disable pam-pci
readonly pam-rom on
disable pam-rom
log pc.rom code on
readonly isa-bios on
log pc.bios code on
disable pam-ram.2
disable pam-pci.3
readonly pam-rom.2 on
disable pam-rom.2
disable pam-ram.3
disable pam-pci.5
readonly pam-rom.3 on
disable pam-rom.3
disable pam-ram.4
disable pam-pci.7
readonly pam-rom.4 on
disable pam-rom.4
disable pam-ram.5
disable pam-pci.9
readonly pam-rom.5 on
disable pam-rom.5
disable pam-ram.6
disable pam-pci.11
readonly pam-rom.6 on
disable pam-rom.6
disable pam-ram.7
disable pam-pci.13
readonly pam-rom.7 on
disable pam-rom.7
disable pam-ram.8
disable pam-pci.15
readonly pam-rom.8 on
disable pam-rom.8
disable pam-ram.9
disable pam-pci.17
readonly pam-rom.9 on
disable pam-rom.9
disable pam-ram.10
disable pam-pci.19
readonly pam-rom.10 on
disable pam-rom.10
disable pam-ram.11
disable pam-pci.21
readonly pam-rom.11 on
disable pam-rom.11
disable pam-ram.12
disable pam-pci.23
readonly pam-rom.12 on
disable pam-rom.12
disable pam-ram.13
disable pam-pci.25
readonly pam-rom.13 on
disable pam-rom.13
disable piix4-pm
disable smram.2
disable bus_master
disable bus_master.2
disable bus_master.3
disable bus_master.4
disable bus_master.5
disable bus_master.6
space memory system
space I_O io
space cpu-smm-0 memory
space i440FX bus_master_container
space PIIX3 bus_master_container.2
space piix3-ide bus_master_container.3
space PIIX4_PM bus_master_container.4
space ivshmem-plain bus_master_container.5
space ivshmem-plain.8 bus_master_container.6
commit
listen kvm memory
show memory
region a ram 0x100000
begin
add pci 0xe0000000 a prio 1
log a code on
commit
show memory
region b ram 0x100000
begin
add pci 0xe0100000 b prio 1
log b code on
commit
show memory
begin
move b 0xe0000000
commit
show memory
begin
move a 0xe0100000
commit
show memory
begin
move a 0xe0000000
commit
show memory
begin
del pci a
commit
show memory
begin
add pci 0xe0000000 a prio 1
commit
show memory
begin
move b 0x3000000
commit
show memory
begin
del pci b
commit
show memory
begin
add pci 0x240000000 b prio 1
commit
show memory
begin
move b 0x3f00000
commit
show memory
begin
move a 0xfff00000
commit
show memory
