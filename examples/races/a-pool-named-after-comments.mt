# The pool of the machine is the one that the first command names, however many lines without a command stand before it: 8 KiB are
# 1,024 words. A page of RAM takes 512 words of data and 3 of marks, so two pages do not fit.

   # A comment may stand after blanks.
machine 8K
region first ram 0x1000
region second ram 0x1000
region bus container 0x10000
space memory bus
add bus 0 first
par
v0 write memory 0x10 2a
v1 write memory 0x18 2b
end
v0 read memory 0x10 9
