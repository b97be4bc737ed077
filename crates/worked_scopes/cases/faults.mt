# A map with one of each fault that lint finds.
region top container 0x10000
region a ram 0x4000
region b io 0x1000 latch
region c io 0x1000 latch
region small rom 0x1000
region window alias 0x2000 small 0x800
region edge io 0x2000 latch
region under io 0x100 latch
region off ram 0x1000
region lost ram 0x1000
add top 0x0 a
add top 0x8000 b
add top 0x8800 c
add top 0xa000 window
add top 0xf000 edge
add top 0x100 under prio -1
add top 0xd000 off
disable off
space mem top
