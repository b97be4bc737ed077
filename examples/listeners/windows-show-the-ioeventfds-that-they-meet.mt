# A window shows the ioeventfds of which it shows a byte: one that two windows part is there once; one whose end alone is
# shown stands before address 0; one that ends right before the window is not there; of two at one place the lower value
# comes first; and by two windows on one place an ioeventfd is there at two addresses.
region A container 0x1000
region B container 0x1000
region C container 0x1000
region E container 0x1000
region D io 0x100 latch
event D 2 4 1
event D 6 2 2 data 3
event D 6 2 3 data 1
event D 0x20 1 4
region p alias 4 D 0
region q alias 2 D 4
region r alias 1 D 5
region s alias 2 D 6
region t alias 1 D 0x20
region u alias 1 D 0x20
unmergeable p on
unmergeable q on
unmergeable r on
unmergeable s on
unmergeable t on
unmergeable u on
add A 0 p
add A 4 q
add B 0 r
add C 0x100 s
add E 0 t
add E 8 u
begin
space a A
space b B
space c C
space e E
commit
listen La a
listen Lb b
listen Lc c
listen Le e
