# Of a child that reaches past the end of its container only what lies in the container is shown.
region A container 0x2000
region D io 0x3000 latch
add A 0x1000 D
space S A
show S
