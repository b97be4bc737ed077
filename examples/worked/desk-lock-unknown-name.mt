# A virtual CPU asks for a change of a region that is not there.
region A container 0x10000
region R ram 0x1000
space S A
add A 0 R
par
v0 do move R 0x2000
v0 read S 0x2000 1
v1 do add A 0 Z
end
show S
