# The lines between par and end are those of actors that run beside one another: the desk, which changes the map, and each virtual CPU.
# Under run they are done in written order, which is one of the ways in which it may go.
region board container 0x10000
region ram ram 0x1000
begin
space memory board
add board 0 ram
commit
par
v0 write memory 0 11
move ram 0x4000
v0 read memory 0 1
v1 read memory 0x4000 1
v1 do move ram 0x8000
end
show memory
