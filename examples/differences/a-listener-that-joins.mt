# A listener that joins is told the ranges and the live ioeventfds, and nothing of logging, which it reads off its ranges (log=1 is VGA's).
# QEMU 7.2 tells no ioeventfds then, and the start of logging for each range that is logged.
region sys container 0x10000
region mem ram 0x1000
region dev io 0x1000 latch
begin
space S sys
add sys 0 mem
add sys 0x1000 dev
log mem vga on
event dev 0 4 5
commit
listen L S
