# A device says which sizes a guest may use and which its callbacks take; an access is cut to fit. This counter goes up by one at each
# callback and takes 2 bytes at a time: a read of 8 bytes is four callbacks, after which it stands at 4. An ioeventfd takes the write that
# fits it in the place of the device.
region count io 0x100 count valid 1-8 impl 2-2
region door io 0x100 latch
region board container 0x1000
begin
space memory board
add board 0 count
add board 0x800 door
event door 0 4 5 data 1
commit
v0 read memory 0 8
v0 read memory 0 2
v0 write memory 0x800 01000000
notified 5
v0 write memory 0x800 02000000
v0 read memory 0x800 4
