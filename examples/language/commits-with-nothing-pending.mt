# Only the outermost commit publishes, and only where an accepted change is pending: making a region is none, nor is a call
# that is refused; a change that was published before the begin is not pending either.
region A container 0x1000
space S A
begin
commit
show S
begin
begin
enable A
commit
region B container 0x1000
add A 0 A
commit
show S
begin
region C container 0x1000
add Q 0 A
commit
show S
enable A
begin
commit
show S
commit
