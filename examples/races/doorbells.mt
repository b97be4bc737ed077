# Three virtual CPUs ring the same doorbell, an ioeventfd, which is then set. A write of another value goes to the device.
machine 64K
region A container 0x1000
region D io 0x10 latch
begin
space S A
add A 0 D
event D 0 4 3 data 0x1
event D 4 4 5
commit
par
notified 7
v0 write S 0 01000000
v0 write S 4 07000000
v1 write S 0 01000000
v1 write S 0 02000000
v2 write S 0 01000000
v2 write S 4 09000000
end
notified 3
notified 5
v0 read S 0 4
