# A listener that joins is told what its space shows, ranges before ioeventfds; one that leaves is told that all of it goes,
# ioeventfds before ranges. One that has left is unknown.
region D io 0x1000 latch
space S D
event D 0x10 4 1
listen L S prio -1
unlisten L
unlisten L
