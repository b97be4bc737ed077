region board container 0x10000        # regions, and an address space with its root
region ram ram 0x2000
region uart io 0x1000 latch
space memory board
listen kvm memory                     # a listener is told each change
begin                                 # a transaction: one change
add board 0 ram
add board 0x1000 uart prio 1          # over the RAM
commit
v0 write memory 0xffe 0102            # virtual CPU 0 writes; the answer tells its generation
at memory 0x1004                      # what does an address reach?
add board 0 ram                       # refused: it is in a container
