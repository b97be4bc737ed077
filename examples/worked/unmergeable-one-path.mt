# An unmergeable device stays one range where an empty container lies over its middle.
region D io 0x1000 latch
region H container 0x100
space S D
unmergeable D on
add D 0x400 H
show S
