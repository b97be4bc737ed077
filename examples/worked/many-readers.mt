# Passes in three generations: the oldest holds up each next publish until it leaves.
region A container 0x1000
space S A
v0 enter
v8 enter
enable A
v1 enter
enable A
v2 enter
enable A
enable A
enable A
enable A
enable A
enable A
v0 leave
enable A
v8 leave
enable A
enable A
v1 leave
enable A
show S
