# An access is cut where the leaf changes, though the offsets go on, and where a flag does.
region D io 8 latch valid 1-8 impl 1-8
region E io 8 latch valid 1-8 impl 1-8
region R ram 0x1000
region A container 0x3000
region P alias 4 D 0
region Q alias 4 E 4
region X alias 4 R 0
region Y alias 4 R 4
begin
space S A
space T D
space U E
space V R
add A 0 P
add A 4 Q
add A 0x100 X
add A 0x104 Y
readonly Y on
commit
v0 write S 0 0102030405060708
v0 read T 0 8
v0 read U 0 8
v0 read S 0 8
v0 write S 0x100 1112131415161718
v0 read V 0 8
v0 write S 0x108 00
