# The words of a dropped region are free again only once no pass can read them.
machine 8K
region A container 0x2000
region R ram 0x1000
region F io 8 latch regs 509
begin
space S A
add A 0 R
commit
v0 enter
v0 write S 0 77
del A R
drop R
v0 read S 0 1
region T ram 0x1000
reap
v0 leave
reap
region T ram 0x1000
add A 0 T
v0 read S 0 1
