# A write marks its page for the client of the log, and a harvest takes the mark; a load marks nothing.
region R ram 0x1000
space S R
log R code on
v0 write S 0x123 01
dirty R vga
dirty R code
load R 0 02
dirty R code
