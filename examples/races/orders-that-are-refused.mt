# Orders of a block that are refused stand in the desk's record with their refusals: a load past the end of its region, one of a container, a listener
# beyond the 64 that there may be, and a change of a virtual CPU that would lead back.
region A container 0x1000
region R ram 0x1000
space S A
listen L1 S
listen L2 S
listen L3 S
listen L4 S
listen L5 S
listen L6 S
listen L7 S
listen L8 S
listen L9 S
listen L10 S
listen L11 S
listen L12 S
listen L13 S
listen L14 S
listen L15 S
listen L16 S
listen L17 S
listen L18 S
listen L19 S
listen L20 S
listen L21 S
listen L22 S
listen L23 S
listen L24 S
listen L25 S
listen L26 S
listen L27 S
listen L28 S
listen L29 S
listen L30 S
listen L31 S
listen L32 S
listen L33 S
listen L34 S
listen L35 S
listen L36 S
listen L37 S
listen L38 S
listen L39 S
listen L40 S
listen L41 S
listen L42 S
listen L43 S
listen L44 S
listen L45 S
listen L46 S
listen L47 S
listen L48 S
listen L49 S
listen L50 S
listen L51 S
listen L52 S
listen L53 S
listen L54 S
listen L55 S
listen L56 S
listen L57 S
listen L58 S
listen L59 S
listen L60 S
listen L61 S
listen L62 S
listen L63 S
listen L64 S
par
load R 0xfff 0102
load A 0 00
listen one-more S
v0 do add A 0 A
v0 read S 0 1
end
load R 0xffe 0102
unlisten L64
listen one-more S
