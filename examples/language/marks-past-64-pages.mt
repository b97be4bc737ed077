# A region of 80 pages has two mark words for each client; a write over the border of the first marks a page in each,
# and a harvest tells the pages of the second from 64 on. No mark word is one of the data.
region R ram 0x50000
space S R
log R migration on
v0 write S 0x3ffff 0102
v0 write S 0x4f000 aa
dirty R vga
dirty R migration
dirty R migration
load R 0x4fff8 ffffffffffffffff
dirty R vga
v0 read S 0x4fff8 8
