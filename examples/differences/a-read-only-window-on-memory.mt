# A write through a read-only alias changes nothing and ends with a decode error.
# QEMU's write reaches the memory: a PC's pam-rom, which shows memory read-only, is written there all the same.
region sys container 0x10000
region mem ram 0x1000
region win alias 0x1000 mem 0
readonly win on
begin
space S sys
add sys 0 mem
add sys 0x8000 win
commit
v0 write S 0x8000 2a
v0 read S 0 1
