# Read-only, logging and the mode of a ROM device act when the transaction is committed, as all else does.
# QEMU's flags act at once on what is in the map already: the write inside the transaction would be refused there.
region mem ram 0x1000
space S mem
begin
readonly mem on
v0 write S 0 2a
commit
v0 write S 0 2b
v0 read S 0 1
