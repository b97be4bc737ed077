# An ioeventfd is live where a byte of it is shown, also where its first bytes lie before address 0: the window begins at its second byte.
# QEMU aborts on this map.
region dev io 0x100 latch
region win alias 0x80 dev 0x11
event dev 0x10 4 6
space S win
listen L S
