# How a guest finds the size of a BAR and gives it an address, by what the board's code does to the map at each of its writes: a BAR that
# is not decoded is a region that is disabled. A disabled region that moves shows nothing, so the listener is told only that all is kept.
region system container 0x10000000000000000
region pci container 0x10000000000000000
region ram ram 1M
region bar0 io 0x4000 latch
begin
space memory system
add system 0 ram
add system 0 pci prio -1
add pci 0 bar0
disable bar0
commit
listen kvm memory
# the guest writes ones and reads the size back: the device model moves the disabled region to the top of 4 GiB
move bar0 0xffffc000
# it gives the address, and then sets the bit of the command register that decodes memory
move bar0 0xe0000000
enable bar0
at memory 0xe0000010
# an address in memory's range: memory has the higher priority, so the BAR is hidden
move bar0 0x8000
at memory 0x8000
