# A region of no bytes is refused; it would show nothing. Sixteen of 109 machines in QEMU that were looked at have some.
region empty container 0
