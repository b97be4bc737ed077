region A container 1K  # a device option out of order
region D io 8 latch valid 1-8 regs 2
