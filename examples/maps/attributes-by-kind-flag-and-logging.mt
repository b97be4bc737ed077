# What is logged for VGA itself, and for migration with all memory; a ROM is read-only; a ROM device is in its mode; a device
# is not logged with all memory. What is non-volatile makes all in it so.
region A container 0x4000
region R ram 0x1000
region O rom 0x1000
region F romdev 0x1000 latch valid 1-8 impl 1-8
region D io 0x1000 latch valid 1-8 impl 1-8
add A 0 R
add A 0x1000 O
add A 0x2000 F
add A 0x3000 D
space S A
log R vga on
global on
nonvolatile A on
at S 0
at S 0x1000
at S 0x2000
at S 0x3000
