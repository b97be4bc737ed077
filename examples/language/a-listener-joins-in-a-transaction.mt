# A listener that joins or leaves is told what the current generation shows, not what a pending change would.
region A container 0x1000
region D io 8 latch
space S A
begin
add A 0 D
listen L S
show S
at S 0
commit
begin
move D 0x10
unlisten L
commit
show S
