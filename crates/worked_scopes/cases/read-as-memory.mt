# Of the devices those whose own line ends with the comment are read as memory.
region board container 0x100000000
region uart io 0x1000 latch
region uart io 0x40000000 latch # memory
region ram io 0x40000000 latch # memory
region sram io 0x400 latch # memory
region timer io 0x1000 latch # no memory
region boot rom 0x1000 # memory
region hidden reserve 0x1000 # memory
space memory board
begin
add board 0x0 ram
add board 0x40000000 sram
add board 0x50000000 uart # memory
add board 0x50001000 timer
add board 0x60000000 boot
add board 0x60001000 hidden
commit
