# Windows on neighbouring parts of one region merge in the view until one is read-only; one past the region's end shows nothing.
region R ram 0x2000
region A container 0x5000
region P alias 0x1000 R 0
region Q alias 0x1000 R 0x1000
region Z alias 0x1000 R 0x2000
space S A
add A 0 P
add A 0x1000 Q
add A 0x2000 Z
show S
readonly Q on
show S
