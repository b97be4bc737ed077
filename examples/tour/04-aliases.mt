# An alias is a window on another region, from an offset in it on. One memory shows at two places, and a write at the one is read at the
# other. What is found through a read-only window is read-only.
region board container 0x10000
region ram ram 0x2000
region low alias 0x1000 ram 0
region high alias 0x1000 ram 0x1000
region again alias 0x1000 ram 0
readonly again on
begin
space memory board
add board 0 low
add board 0x4000 high
add board 0x8000 again
commit
show memory
v0 write memory 0x10 2a
v0 read memory 0x8010 1
v0 write memory 0x8010 2b
