# An alias of an alias: each moves the address.
machine 64K
region R ram 0x4000
region P alias 0x3000 R 0x1000
region Q alias 0x2000 P 0x1000
region A container 0x4000
add A 0x1000 Q
space S A
show S
