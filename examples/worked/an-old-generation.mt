# A pass that is in an old generation reads RAM that is no longer in the map.
region A container 0x1000
region R ram 0x1000
load R 0 2a
begin
space S A
add A 0 R
commit
v0 enter
del A R
v0 read S 0 1
v0 leave
v0 read S 0 1
