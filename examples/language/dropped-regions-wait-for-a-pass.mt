# A reap releases a dropped region only when no generation that a pass may still use names it; in order of making. A new region
# in its place is clear.
machine 8K
region A container 0x1000
region D io 8 latch
region E io 8 latch
space S A
add A 0 D
add A 8 E
v0 enter
v0 write S 0 77
del A E
del A D
drop E
drop D
reap
v0 read S 0 1
v0 leave
reap
reap
v0 read S 0 1
region G io 8 latch
add A 0 G
v0 read S 0 1
