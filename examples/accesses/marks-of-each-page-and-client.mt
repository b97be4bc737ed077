# A write marks each page that it touches, for each client that asks: one byte one page, two bytes over a boundary two, and
# where nobody asks none. The 64 bytes up to the end of a page stay in it.
machine 64K
region R ram 0x5000
space S R
v0 write S 5 01
dirty R vga
log R vga on
v0 write S 5 01
dirty R vga
dirty R code
log R migration on
v0 write S 4095 0102
dirty R vga
dirty R migration
dirty R code
log R vga off
log R migration off
log R code on
v0 write S 0x2fc0 01010101010101010101010101010101010101010101010101010101010101010101010101010101010101010101010101010101010101010101010101010101
dirty R code
v0 write S 0x3fff 01
v0 write S 0x4000 01
dirty R code
dirty R vga
