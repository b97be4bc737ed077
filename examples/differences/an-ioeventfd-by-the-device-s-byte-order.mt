# The value that an ioeventfd waits for is compared in the byte order of the device: 01 02 written to a big-endian device is 0x102.
# QEMU compares in the byte order of the target, so on x86 it would be 0x201.
region dev io 0x10 latch big
space S dev
event dev 0 2 3 data 0x102
v0 write S 0 0102
notified 3
v0 write S 0 0201
notified 3
