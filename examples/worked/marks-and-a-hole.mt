# A write over the edge of two pages marks both; a read that runs into a hole has its front, zeros, and a decode error.
region A container 0x10000
region R ram 0x2000
space S A
add A 0 R
log R vga on
v0 write S 0xffe 01020304
dirty R vga
dirty R vga
v0 write S 0x1ffd aabbcc
v0 read S 0x1ffd 6
