# RAM has whole pages, at most 512 MiB of them, and no region is without bytes; a container, a reservation and others may
# have any size up to 2^64. An unknown target comes before a bad size. For 512 MiB of ROM the size is good, and no hole of
# this pool has the words for it.
machine 64K
region a ram 0x1001
region b container 0
region c container 0x1001
region d rom 512M
region e rom 0x20001000
region f reserve 0x10000000000000000
region g alias 0 Q 0
region h alias 0 c 0
