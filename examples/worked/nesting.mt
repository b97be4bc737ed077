# Transactions nest: what changed is told at the end of the outermost, and a commit without a begin is refused.
region A container 0x1000
region D io 0x100 latch
space S A
listen L S
begin
begin
add A 0 D
commit
commit
commit
