# A pass that entered before a block stays in its generation throughout.
region A container 0x1000
region R ram 0x1000
space S A
add A 0 R
v0 enter
par
move R 0x800
end
v0 read S 0 1
show S
