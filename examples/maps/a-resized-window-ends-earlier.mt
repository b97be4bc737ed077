# Where a window was made shorter, what lies below it is found: here the RAM below the firmware's window.
machine 160M
region sys container 0x10000000000000000
region ram ram 128M
region lowram alias 128M ram 0
region bios rom 256K
region isabios alias 128K bios 0x20000
space mem sys
add sys 0 lowram
add sys 0xe0000 isabios prio 1
at mem 0xf0000
resize isabios 0x10000
at mem 0xeffff
at mem 0xf0000
