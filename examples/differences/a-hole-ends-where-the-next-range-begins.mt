# An access that begins where nothing answers goes on exactly at the next range.
# QEMU takes aligned pieces of up to 4 bytes of a hole, so it can swallow up to 3 bytes of what follows.
region sys container 0x10000
region mem ram 0x1000
load mem 0 112233
begin
space S sys
add sys 0x1001 mem
commit
v0 read S 0x1000 4
