# Two children may overlap. The one of higher priority is asked first, and of equal priorities the one that was added last. Where the
# first has a hole, the other shows through.
region board container 0x10000
region ram ram 0x8000
region bank container 0x4000
region timer io 0x1000 latch
space memory board
add board 0 ram
add board 0x2000 bank prio 1
add bank 0 timer
show memory
# the same with the timer's container asked last
del board bank
add board 0x2000 bank prio -1
show memory
