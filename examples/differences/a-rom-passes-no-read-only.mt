# A ROM is read-only, and does not pass that to its children.
# QEMU passes it on: the memory in the ROM would be read-only too.
machine 32K
region rom rom 8K
region mem ram 4K
add rom 0x1000 mem
space S rom
show S
v0 write S 0x1000 2a
v0 read S 0x1000 1
