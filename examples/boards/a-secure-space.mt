# An ARM board with a secure world: the secure address space shows the whole system with priority -1, and over it memory and a UART that
# the other world does not have.
machine 8M
region system container 0x10000000000000000
region flash rom 64K
region uart io 0x1000 latch
region mach-virt.ram ram 4M
region secure-memory container 0x10000000000000000
region system-in-secure alias 0x10000000000000000 system 0
region secure-ram ram 1M
region secure-uart io 0x1000 latch
begin
space memory system
space cpu-secure-memory secure-memory
add system 0 flash
add system 0x9000000 uart
add system 0x40000000 mach-virt.ram
add secure-memory 0 system-in-secure prio -1
add secure-memory 0x9040000 secure-uart
add secure-memory 0xe000000 secure-ram
commit
show memory
show cpu-secure-memory
# what the secure world writes into its memory the other world does not read; ordinary memory both see
v0 write cpu-secure-memory 0xe000000 c0ffee
v1 read memory 0xe000000 3
v0 write cpu-secure-memory 0x40000000 11223344
v1 read memory 0x40000000 4
