# A name whose region was dropped, or whose listener or watcher has left, is free again and stands for the new one.
region R container 0x1000
drop R
region R io 8 latch
space S R
show S
listen L S
unlisten L
listen L S
region M iommu 0x2000
space T M
map M 0 0x1000 S 0 none
watch W M 0 0xfff
unwatch W
watch W M 0x800 0x1fff
map M 0x1000 0x1000 T 0x3000 w
unwatch W
unwatch W
unlisten L
unlisten L
