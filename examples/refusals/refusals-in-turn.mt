# What is refused in a map of a container, an alias of it and a device, call by call.
region A container 0x1000
region X alias 0x1000 A 0
region D io 0x1000 latch
space S A
space S X
add Q 0 D
add X 0 D
del A D
move D 8
add A 0 D
add A 0 D
romd D on
drop A
event D 0 4 1
event D 0 4 2
del A D
drop A
drop X
drop A
