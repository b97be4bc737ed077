# Bytes copied in one pass: into memory, where the page is marked, to a device, and from over the end of memory.
region A container 0x10000
region R ram 0x2000
region D io 8 latch
begin
space S A
add A 0 R
add A 0x8000 D
commit
load R 0 0102030405060708090a
log R vga on
v0 dma S 0 10 to S 0x1000
v0 read S 0x1000 10
dirty R vga
v0 dma S 0 8 to S 0x8000
v0 read S 0x8000 8
v0 dma S 0x1ffe 4 to S 0x1000
