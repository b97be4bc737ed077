# An access over two windows on one counter is one callback where their ranges merge, and two where the counter is unmergeable.
region D io 8 count valid 1-8 impl 1-8
region A container 0x10
region P alias 4 D 0
region Q alias 4 D 4
space S A
add A 0 P
add A 4 Q
v0 read S 0 8
unmergeable D on
v0 read S 0 8
v0 read S 0 4
