# A virtual CPU changes the map by orders of its own and reads by it: it enters no older map than that of its last order. The others
# stay in the one in which they entered before.
machine 64K
region A container 0x10000
region R ram 0x1000
space S A
add A 0 R
load R 0 aa55
v1 enter
v2 enter
par
v0 do move R 0x2000
v0 read S 0x2000 2
v0 do readonly R on
v0 write S 0x2000 00
v0 do readonly R off
v0 do log R vga on
v1 read S 0 1
v1 read S 0x2000 1
v2 read S 1 1
v2 leave
end
v1 leave
v1 read S 0x2000 2
show S
dirty R vga
