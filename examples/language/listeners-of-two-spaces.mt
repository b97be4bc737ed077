# A listener that leaves is told what its own space shows; in a publish each hears the walk of its own space, and of equal
# priorities the one that joined first is first.
region D io 8 latch
region E io 8 latch
space S D
space T E
listen K S
listen L T
unlisten L
listen L T
disable D
retarget E 0
resize E 4
enable D
unlisten K
show S
show T
