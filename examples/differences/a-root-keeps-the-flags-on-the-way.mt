# What is found through a read-only window is read-only, also where the window is the root of the space and shows all of its target.
# QEMU skips such a root, and the flag with it.
machine 8K
region mem ram 0x1000
region win alias 0x1000 mem 0
readonly win on
space S win
show S
v0 write S 0 2a
