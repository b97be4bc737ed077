# A virtual CPU copies memory, to memory and to a device, beside a desk that only looks.
machine 64K
region A container 0x10000
region R ram 0x2000
region D io 8 latch
begin
space S A
add A 0 R
add A 0x8000 D
commit
load R 0 0102030405060708090a
log R vga on
par
show S
at S 0x8000
v0 dma S 0 10 to S 0x1000
v0 read S 0x1000 10
v0 dma S 0 8 to S 0x8000
v0 read S 0x8000 8
v0 dma S 0x1ffe 4 to S 0x1000
end
dirty R vga
