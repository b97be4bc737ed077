# A read and a write of a device that fails
region x io 8 fault
space s x
v0 read s 0 1
v0 write s 0 01
