# A ROM device is memory to read and a device to write, until its mode is off; a counter gives how often it was read; a bell
# gathers bits until it is read; a faulty device answers with an error.
region F romdev 0x1000 latch
region C io 8 count
region B io 8 bell
region X io 8 fault
space f F
space c C
space b B
space x X
load F 0 aabb
v0 read f 0 2
v0 write f 0 1122
v0 read f 0 2
romd F off
v0 read f 0 2
v0 read c 0 1
v0 read c 0 1
v0 write b 0 05
v0 write b 0 02
v0 read b 0 1
v0 read b 0 1
v0 read x 0 1
v0 write x 0 01
