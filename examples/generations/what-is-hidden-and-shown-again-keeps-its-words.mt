# A change after which the same regions are shown, one after which a region is hidden, and one after which it is shown again: its words
# are as they were, and a virtual CPU that entered before reads them throughout.
region B container 0x4000
region R ram 0x1000
region Q ram 0x1000
space S B
add B 0 R
add B 0x1000 Q
v0 write S 0 1111111111111111
v0 write S 0x1000 2222222222222222
v1 enter
move Q 0x2000
v0 read S 0 8
v0 read S 0x1000 8
v0 read S 0x2000 8
begin
del B Q
add B 0 Q prio 1
commit
v0 read S 0 8
v0 read S 0x2000 8
v1 read S 0 8
v1 read S 0x1000 8
v1 write S 0 3333333333333333
move Q 0x800
v0 read S 0 8
v0 read S 0x800 8
v0 read S 0x17f8 8
v1 read S 0x17f8 8
v1 leave
v1 read S 0 8
disable Q
v1 read S 0x800 8
enable Q
v1 read S 0x800 8
