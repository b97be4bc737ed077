region A container 0X10  # the prefix is the small 0x
space
