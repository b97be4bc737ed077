region A container 1K  # a par without an end is at fault itself
space S A
par
v0 enter
