# The marks of a ROM device are words after its data and its registers: a harvest touches neither.
region F romdev 0x1000 latch regs 2
space S F
load F 0xff0 ffffffffffffffffffffffffffffffff
v0 write S 0 aa
v0 write S 8 bb
dirty F vga
dirty F code
dirty F migration
v0 read S 0xff0 16
romd F off
v0 read S 0 1
v0 read S 8 1
