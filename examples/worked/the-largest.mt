# A region of 2^64 bytes, with a device at its very end.
region big io 0x10000000000000000 latch
region tip io 0x10 latch
add big 0xffffffffffffffff tip
space S big
show S
