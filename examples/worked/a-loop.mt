# A region is not put into what it shows, also where it shows it through two aliases.
region A container 0x1000
region X alias 0x1000 A 0
region Y alias 0x1000 X 0
region D io 0x100 latch
space S A
add A 0x80 D
show S
add A 0 Y
show S
