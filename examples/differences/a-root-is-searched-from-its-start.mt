# A space shows its root from the root's own first byte on, wherever the root stands in a container.
# QEMU subtracts the root's offset there, so dev would show from 0x4000 on.
region sys container 0x10000
region dev io 0x1000 latch
space S dev
add sys 0x4000 dev
at S 0
at S 0x4000
