# Memory of 4 GiB is plugged in, taken out and dropped. What is made under its name then is a device.
region board container 0x10000000000000000
region ram ram 0x10000
region dimm io 0x100000000 latch # memory
add board 0x0 ram
space memory board
add board 0x100000000 dimm
del board dimm
drop dimm
region dimm io 0x1000 latch
add board 0x200000000 dimm
