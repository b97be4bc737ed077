# Names are resolved from left to right, then a new name is tried, and then the other conditions.
region A container 0x1000
region B alias 8 C 0
region A alias 8 C 0
space S A
space S C
space S A
listen L S
listen L T
listen L S
watch W A 0 1
watch W C 0 1
watch W A 1 0
watch V A 1 0
region R alias 8 R 0
region A ram 1
region R ram 1
add Q 0 P
v0 dma P 0 1 to Q 0
