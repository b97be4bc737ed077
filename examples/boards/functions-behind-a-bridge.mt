# Eight PCI functions behind a bridge: each has a BAR of registers, and the bridge shows a window of the bus behind it. A BAR outside the
# window is on the bus and not in memory. When the guest programs the window anew, one commit moves what all eight show.
region system container 0x10000000000000000
region pci container 0x10000000000000000
region bus1 container 0x10000000000000000
region window alias 0x8000 bus1 0xe0000000
region f0 io 0x1000 latch
region f1 io 0x1000 latch
region f2 io 0x1000 latch
region f3 io 0x1000 latch
region f4 io 0x1000 count
region f5 io 0x1000 count
region f6 io 0x1000 bell
region f7 io 0x1000 fault
begin
space memory system
space bus bus1
add system 0 pci prio -1
add pci 0xe0000000 window
add bus1 0xe0000000 f0
add bus1 0xe0001000 f1
add bus1 0xe0002000 f2
add bus1 0xe0003000 f3
add bus1 0xe0004000 f4
add bus1 0xe0005000 f5
add bus1 0xe0006000 f6
add bus1 0xe0008000 f7
commit
show memory
# f7 lies past the window's end
at bus 0xe0008000
at memory 0xe0008000
# the guest gives the window 64 KiB at another address: three changes, one commit
begin
resize window 0x10000
move window 0xf0000000
retarget window 0xe0000000
commit
show memory
v0 read memory 0xf0004000 4
v0 read memory 0xf0004000 4
v0 read memory 0xf0008000 4
