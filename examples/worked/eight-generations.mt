# A publish is held up while a pass is in a generation seven below the current one.
region A container 0x1000
space S A
v0 enter
enable A
enable A
enable A
enable A
enable A
enable A
enable A
enable A
v0 leave
enable A
show S
