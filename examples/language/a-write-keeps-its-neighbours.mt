# A write replaces just the touched bytes of each word: those before and after them stay.
region R ram 0x1000
space S R
load R 0 1122334455667788
v0 write S 2 a1a2a3
v0 read S 0 8
v0 write S 7 b1b2
v0 read S 0 16
load R 5 ff
v0 read S 0 8
