# A PC's BIOS area: ROM at first, then RAM is switched in over it, and then the other way round.
begin
region sys container 0x100000
region ram ram 0x100000
region bios rom 0x10000
region low alias 0xf0000 ram 0
region shadow alias 0x10000 ram 0xf0000
add sys 0 low
add sys 0xf0000 bios
add sys 0xf0000 shadow prio 1
disable shadow
space memory sys
commit
enable shadow
