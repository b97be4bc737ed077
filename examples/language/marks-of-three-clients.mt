# A write marks its pages for each client of the log; a load and a refused write mark nothing; a harvest takes the marks of one
# client alone.
region A container 0x4000
region R ram 0x2000
region P alias 0x2000 R 0
begin
space S A
add A 0 R
add A 0x2000 P
readonly P on
log R vga on
log R code on
global on
commit
v0 write S 0xfff 0102
load R 0 aa
v0 write S 0x2000 bb
dirty R vga
dirty R code
dirty R migration
dirty R migration
log R vga off
v0 write S 0x10 01
dirty R vga
dirty R code
dirty R migration
global off
v0 write S 0x1010 01
dirty R code
dirty R migration
v0 read S 0x2000 1
dirty Q vga
