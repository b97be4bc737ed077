# A container without children shows nothing; a space that was not made is unknown.
region A container 0x1000
space S A
show S
at S 0
at S 0xfff
at S 0xffffffffffffffff
at T 0
