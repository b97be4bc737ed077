# Two windows side by side on a counter of 8 bytes: an access over both is one callback, and two where the counter is
# unmergeable, since the path changes.
region C io 8 count valid 1-8 impl 1-8
region A container 0x10
region P alias 4 C 0
region Q alias 4 C 4
space S A
add A 0 P
add A 4 Q
v0 read S 0 8
v0 read S 0 8
unmergeable C on
v0 read S 0 8
v0 read S 0 4
