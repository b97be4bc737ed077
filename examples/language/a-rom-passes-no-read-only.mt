# A ROM is read-only itself, but its own read-only is not passed to its children; its flag is.
region O rom 0x1000
region D io 8 latch
space S O
add O 0 D
show S
readonly O on
show S
