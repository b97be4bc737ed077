# A change by a virtual CPU: it names the generation that it published, none in a transaction; a refused one is a refusal.
region A container 0x1000
region D io 8 latch
space S A
listen L S
v3 do add A 0 D
begin
v3 do move D 0x10
commit
v3 do del A A
v3 do del A Q
v3 do resize D 4
