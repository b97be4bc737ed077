# Three pages of unmergeable memory: two are shown by one window and are one range, the third by another window and is apart.
region A container 0x3000
region R ram 0x3000
region P alias 0x2000 R 0
region Q alias 0x1000 R 0x2000
region H container 0x800
unmergeable R on
begin
space S A
add A 0 P
add A 0xc00 H prio 1
add A 0x2000 Q
commit
show S
