# A virtual CPU that has entered stays in its generation until it leaves, whatever is committed meanwhile; each of its answers tells the
# number. Memory that was dropped is given back once nobody can see it any more.
region board container 0x10000
region ram ram 0x1000
load ram 0 2a
begin
space memory board
add board 0 ram
commit
v0 enter
del board ram
drop ram
v0 read memory 0 1
v1 read memory 0 1
reap
v0 leave
reap
