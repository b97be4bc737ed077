# Pages side by side are one range where the offsets in one leaf go on and the attributes are the same: not with another
# attribute, with another leaf, after a hole, or at another offset.
region A container 0x8000
region R ram 0x8000
region Q ram 0x8000
region P0 alias 0x1000 R 0
region P1 alias 0x1000 R 0x1000
region P2 alias 0x1000 R 0x2000
region P3 alias 0x1000 Q 0x3000
region P5 alias 0x1000 Q 0x5000
region P6 alias 0x1000 Q 0x5000
region P7 alias 0x1000 Q 0x6000
nonvolatile P2 on
nonvolatile P3 on
nonvolatile P5 on
nonvolatile P6 on
nonvolatile P7 on
begin
space S A
add A 0 P0
add A 0x1000 P1
add A 0x2000 P2
add A 0x3000 P3
add A 0x5000 P5
add A 0x6000 P6
add A 0x7000 P7
commit
show S
