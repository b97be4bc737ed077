# A space that is made within two transactions shows nothing until the outer one is committed.
region A container 0x10000
region P reserve 0x1000
region Q reserve 0x1000
region B container 0x10000
region E reserve 0x100
add A 0 P
add A 0x2000 Q
add B 0 E
space S A
space T B
show S
begin
begin
space U B
commit
at U 0
show S
commit
at U 0
show U
