# Of two children that overlap with one priority the one added or moved last wins; a move to where it stands changes nothing.
region A container 0x1000
region X io 0x1000 latch
region Y io 0x1000 latch
space S A
add A 0 X
add A 0 Y
at S 0
move X 0x800
move X 0
at S 0
move Y 0
at S 0
