# Four virtual CPUs write pages of one memory at once: no mark of theirs is lost. Each reads back what it wrote.
machine 64K
region R ram 0x8000
space mem R
log R migration on
par
v0 write mem 0x0ffe 11223344
v0 read mem 0x0ffe 4
v1 write mem 0x3000 55
v1 write mem 0x6ff8 0102030405060708
v1 read mem 0x6ff8 8
v2 write mem 0x3008 66
v2 read mem 0x3008 1
v3 write mem 0x3010 77
v3 dma mem 0x3010 1 to mem 0x7fff
v3 read mem 0x7fff 1
end
dirty R migration
dirty R migration
