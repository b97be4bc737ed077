# System management RAM of a PC: at 0xa0000 the machine shows the VGA window, and a processor in system management mode the memory under
# it. Such a processor has an address space of its own, whose root shows all of the other one and, with a higher priority, the hidden RAM.
machine 1M
region system container 0x10000000000000000
region pc.ram ram 1020K
region ram alias 1020K pc.ram 0
region vga io 0x20000 latch
region smm-root container 0x10000000000000000
region smm-memory alias 0x10000000000000000 system 0
region smram alias 0x20000 pc.ram 0xa0000
begin
space memory system
space cpu-smm smm-root
add system 0 ram
add system 0xa0000 vga prio 1
add smm-root 0 smm-memory
add smm-root 0xa0000 smram prio 1
commit
show memory
show cpu-smm
# the handler writes its state: the machine does not see it
v0 write cpu-smm 0xa0000 5a5a5a5a
v0 read memory 0xa0000 4
v0 read cpu-smm 0xa0000 4
# the firmware locks it away: from then on system management mode sees the VGA window as well
disable smram
v0 read cpu-smm 0xa0000 4
