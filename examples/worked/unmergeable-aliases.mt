# Neighbouring parts that are flagged unmergeable stay apart in the view.
region R ram 0x2000
region A container 0x5000
region P alias 0x1000 R 0
region Q alias 0x1000 R 0x1000
space S A
add A 0 P
add A 0x1000 Q
show S
unmergeable P on
unmergeable Q on
show S
