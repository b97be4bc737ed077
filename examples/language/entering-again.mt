# A pass that enters anew leaves first, without a line for it; one that is not entered leaves with a line and does nothing
# else.
region A container 0x1000
space S A
v0 enter
enable A
v0 read S 0 1
v0 enter
v0 read S 0 1
v0 leave
v0 leave
v15 leave
