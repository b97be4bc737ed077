# A region goes into the hole of least start that has room, not into the one that fits best. The pool has 512 words.
machine 4K
region A io 8 latch regs 100
region B io 8 latch regs 200
region C io 8 latch regs 150
drop B
region D io 8 latch regs 63
reap
region D io 8 latch regs 201
region E io 8 latch regs 62
region F io 8 latch regs 139
region F io 8 latch regs 138
region G io 8 latch regs 62
region H io 8 latch
