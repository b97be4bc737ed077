# Without a line `machine` the pool has 2097152 words: 4095 pages of RAM with their marks take 2096832 of them.
region R ram 0xfff000
region F io 8 latch regs 321
region F io 8 latch regs 320
region G io 8 latch
