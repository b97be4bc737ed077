# The rounds of a live migration: logging is switched on for all memory, and each round takes the pages that were written since the one
# before. The last round comes after the guest has stopped; a page that was written after its last harvest is in no round before.
machine 1M
region system container 0x100000
region ram ram 64K
region vram ram 32K
begin
space memory system
add system 0 ram
add system 0x80000 vram
commit
# writes before logging mark nothing
v0 write memory 0x0 01
global on
dirty ram migration
# first round
v0 write memory 0x1ffe 01020304
v1 write memory 0x5008 0102030405060708
v0 write memory 0x80010 ff
dirty ram migration
dirty vram migration
# second round: a page that was sent is written again
v0 write memory 0x5008 aa
dirty ram migration
dirty vram migration
# the display takes its own marks, once it asked for them
log vram vga on
v0 write memory 0x81000 ee
dirty vram vga
dirty vram migration
# the guest has stopped: the last round
dirty ram migration
global off
show memory
