# A root is searched from its own address 0, though it stands at another offset in a container.
region A container 0x4000
region D io 0x1000 latch
add A 0x2000 D
space S D
show S
