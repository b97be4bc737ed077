# A region is refused where the pool has no room for its words.
machine 8K
region R ram 0x1000
region T ram 0x1000
region F io 8 latch regs 509
region G io 8 count
