# A name that a refused line was to make, and that a later one made; a space and a region of one name.
region board container 64K
region ram ram 100
region ram ram 4K
add board 0 ram
del board ram
drop ram
add board 0 ram
region low ram 100
space low low
show low
add board 0 low
space memory board
