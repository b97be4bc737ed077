# What a listener is told where two memories are placed in one change, where a device splits one of them, and where the
# logging of the other starts for one client, passes to another, and stops.
region A container 0x10000
region R ram 0x3000
region T ram 0x1000
region W io 0x1000 latch
space S A
listen L S
begin
add A 0 R
add A 0x8000 T
commit
add A 0x1000 W prio 1
log T vga on
begin
log T vga off
log T code on
commit
log T code off
