region sys container 0x10000000000000000
region flash io 0x8000000 latch
region gic container 0x20000
region gicd io 0x10000 latch
region gicc io 0x10000 latch
region uart io 0x1000 latch
region rtc io 0x1000 latch
region pci container 0x30000000
region nic io 0x20000 latch
region rest io 0x40000000 latch
space mem sys
add sys 0 flash
add sys 0x8000000 gic
add gic 0 gicd
add gic 0x10000 gicc
add sys 0x9000000 uart
add sys 0x9010000 rtc
add sys 0x10000000 pci
add pci 0x1000000 nic
add sys 0 rest prio -1
show mem
at mem 0x9000004
at mem 0x11000000
at mem 0x40000000
add sys 0x20000000 nic
