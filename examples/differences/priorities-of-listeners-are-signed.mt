# A listener of priority -1 is told of what is added before one of priority 0, and of what is deleted after it.
# QEMU 7.2 compares the priorities without sign, so -1 is the greatest.
region sys container 0x10000
region dev io 0x1000 latch
space S sys
listen low S prio -1
listen zero S
add sys 0 dev
