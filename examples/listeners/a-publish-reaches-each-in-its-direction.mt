# In a publish all listeners are told of its begin and its commit in ascending priority, of two of one priority the first to
# join first; each is told of its own space alone. Deletions of ranges and additions of ioeventfds go down in priority, all
# else goes up. Here a range goes, another comes, and a device's ioeventfd gets another notifier.
region A container 0x10000
region B container 0x10000
region P reserve 0x1000
region Q reserve 0x1000
region D io 0x100 latch
begin
space S A
space T B
add A 0 P
add A 0x8000 D
event D 0x10 4 1
commit
listen L1 S
listen L2 S prio 10
listen L3 S
listen L4 T prio 5
begin
del A P
add A 0x1000 Q
unevent D 0x10 4
event D 0x10 4 2
commit
