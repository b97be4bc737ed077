# A block of four writers beside a window that moves: a plain run does its lines in order.
region A container 0x10000
region R ram 0x1000
region W alias 0x100 R 0
begin
space S A
add A 0 R
add A 0x8000 W
commit
par
v0 write S 0 1111111111111111
v1 write S 8 2222222222222222
v2 write S 0x10 33333333
v3 write S 0x14 44444444
move W 0x9000
move W 0x8000
end
v4 read S 0 24
