# A listener is how an accelerator such as KVM follows the map: it is told what the space shows when it joins, and from then on what each
# commit takes away, keeps and adds. Here a device is put over memory: one range becomes three.
region board container 0x10000
region ram ram 0x3000
region uart io 0x1000 latch
begin
space memory board
add board 0 ram
commit
listen kvm memory
add board 0x1000 uart prio 1
