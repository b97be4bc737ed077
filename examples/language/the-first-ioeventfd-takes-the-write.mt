# Of the ioeventfds that fit, the first by offset, size, no data before data, and value sets its notifier, and the device is not
# reached. The value is compared in the device's byte order; a read sets none.
region D io 8 latch
region B io 8 latch big
space S D
space T B
event D 0 4 3 data 0x11
event D 0 4 4
event D 0 2 5
event B 0 2 6 data 0x1122
v0 write S 0 11000000
notified 4
notified 3
v0 write S 0 1100
notified 5
v0 write S 0 aa
v0 read S 0 4
unevent D 0 4
v0 write S 0 11000000
v0 write S 0 11000000
notified 3
v0 write S 0 12000000
v0 read S 0 4
v0 write T 0 2211
notified 6
v0 write T 0 1122
notified 6
notified 6
v0 read T 0 2
