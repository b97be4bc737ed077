# A range that differs in a flag alone is deleted and added, not kept.
region A container 0x1000
region R ram 0x1000
add A 0 R
space S A
listen L S
readonly R on
readonly R off
nonvolatile R on
nonvolatile R off
unmergeable R on
