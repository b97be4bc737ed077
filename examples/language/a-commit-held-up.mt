# A commit that a pass holds up is refused and leaves the transaction open; it goes through once the pass has left.
region A container 0x1000
space S A
v0 enter
enable A
enable A
enable A
enable A
enable A
enable A
enable A
begin
enable A
commit
v0 leave
commit
show S
commit
