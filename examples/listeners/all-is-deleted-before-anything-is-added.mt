# A device comes alone; then it moves and another takes its place, in one change; then the root is switched off.
region A container 0x1000
region D io 0x100 latch
region E io 0x100 latch
space S A
listen L S
add A 0 D
begin
move D 0x100
add A 0 E
commit
disable A
