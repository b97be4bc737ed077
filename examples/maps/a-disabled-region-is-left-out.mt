# A region that is switched off is left out with all that is in it, wherever it stands: in a container, as the target of a
# window, or as the root.
region A container 0x4000
region B container 0x2000
region D io 0x1000 latch
region E io 0x4000 latch
region W alias 0x1000 D 0
add A 0 E
add A 0 B prio 1
add B 0 D
add A 0x3000 W prio 1
space S A
show S
disable B
show S
disable D
show S
disable A
show S
