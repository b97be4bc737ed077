# A region that is dropped in a transaction is released only after its commit.
machine 8K
region A container 0x2000
region R ram 0x1000
begin
space S A
add A 0 R
commit
begin
del A R
drop R
reap
commit
reap
region T ram 0x1000
show S
