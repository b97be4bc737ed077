# A container groups regions, each at an offset in it. It answers nothing itself, so a hole is left between its children.
region board container 0x10000
region ram ram 0x2000
region uart io 0x1000 latch
space memory board
add board 0 ram
add board 0x8000 uart
show memory
at memory 0x8004
at memory 0x4000
