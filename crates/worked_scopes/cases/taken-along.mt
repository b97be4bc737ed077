# A size that is no whole page takes four lines along; a transaction stays open, and in the block one virtual CPU is alone.
region sys container 64K
region ram ram 100
region win alias 4K ram 0
add sys 0 ram
add sys 0x8000 win
space memory sys
par
v0 read memory 0 4
v0 read memory 4 4
end
begin
region bios rom 4K
add sys 0x1000 bios
