# Changes that virtual CPUs ask for in a block: a plain run does them in order.
region A container 0x10000
region R ram 0x1000
space S A
add A 0 R
par
v0 do move R 0x2000
v0 read S 0x2000 1
v1 do move R 0x2000
end
show S
