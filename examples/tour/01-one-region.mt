# One RAM region is a whole map: an address space shows it from address 0 on, and nothing after its end.
region ram ram 0x2000
space memory ram
show memory
at memory 0x1fff
at memory 0x2000
