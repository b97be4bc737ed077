# Between begin and commit the map is changed out of sight. The commit makes all of it visible at once, as the next generation: g1 is
# the one in which the space was made, g2 that of the move. What is refused changes nothing.
region board container 0x10000
region ram ram 0x1000
begin
space memory board
add board 0 ram
commit
show memory
begin
move ram 0x1000
move ram 0x2000
show memory
commit
show memory
add board 0x8000 ram
commit
