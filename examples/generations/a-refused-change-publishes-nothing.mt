# A change that is refused publishes no generation.
region A container 0x10000
region P reserve 0x1000
add A 0 P
space S A
add A 0 Q
show S
