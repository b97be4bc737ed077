# A window that leads back to its container is a loop, and refused, also where it would show nothing of itself.
# QEMU's manual forbids it, and its core does not look: six of 109 machines that were looked at have one.
region A container 0x10000
region W alias 0x1000 A 0x8000
add A 0 W
