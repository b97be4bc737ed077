# In a publish the walk of each space is followed by its ioeventfds, before the walk of the next space.
region D io 8 latch
space S D
space T D
listen K S
listen L T
event D 0 1 3
