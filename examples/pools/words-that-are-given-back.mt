# Memory that is placed in two transactions, written, taken out and dropped while a virtual CPU still reads it: its words are
# free once that has left and a reap released it; then another memory has them, cleared, and no words are left.
machine 8K
region A container 0x2000
region R ram 0x1000
region F io 8 latch regs 509
begin
begin
space S A
add A 0 R
commit
commit
v0 enter
v0 write S 0 77
del A R
drop R
v0 read S 0 1
region T ram 0x1000
v0 leave
reap
region T ram 0x1000
add A 0 T
v0 read S 0 1
region U ram 0x1000
