# Two spaces on one root show the same.
region A container 0x10000
region P reserve 0x1000
region Q reserve 0x1000
add A 0 P
add A 0x2000 Q
space S A
space T A
show S
show T
