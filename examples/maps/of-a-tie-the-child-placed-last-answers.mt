# Of two children of one priority the one that was placed last answers. A move places anew, but not one to where the child
# is already, and switching a child off and on does not.
region A container 0x1000
region X io 0x1000 latch
region Y io 0x1000 latch
space S A
add A 0 X
add A 0 Y
show S
disable X
enable X
at S 0xfff
move X 0x800
at S 0x7ff
at S 0x800
move X 0
show S
move Y 0
show S
