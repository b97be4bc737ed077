# Each Delete, LogStop and EventAdd goes to the listeners in descending priority, all else in ascending priority. With
# global logging on, the log of RAM has the bit of migration.
region R ram 0x1000
space S R
listen K S prio 5
listen L S prio -1
log R vga on
log R code on
log R vga off
global on
log R code off
unlisten K
