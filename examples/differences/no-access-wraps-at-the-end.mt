# An access ends at 2^64: bytes past that read as 0, with a decode error.
# QEMU goes on at address 0.
region sys container 0x10000000000000000
region low ram 0x1000
region high ram 0x1000
load low 0 11
load high 0xfff 22
begin
space S sys
add sys 0 low
add sys 0xfffffffffffff000 high
commit
v0 read S 0xffffffffffffffff 2
