# Two aliases of each container in the next one: the weight of the fifteenth would be 1 + 2 (1 + 65533).
region c0 container 0x1000
region a1 alias 0x1000 c0 0
region b1 alias 0x1000 c0 0
region c1 container 0x1000
add c1 0 a1
add c1 0 b1
region a2 alias 0x1000 c1 0
region b2 alias 0x1000 c1 0
region c2 container 0x1000
add c2 0 a2
add c2 0 b2
region a3 alias 0x1000 c2 0
region b3 alias 0x1000 c2 0
region c3 container 0x1000
add c3 0 a3
add c3 0 b3
region a4 alias 0x1000 c3 0
region b4 alias 0x1000 c3 0
region c4 container 0x1000
add c4 0 a4
add c4 0 b4
region a5 alias 0x1000 c4 0
region b5 alias 0x1000 c4 0
region c5 container 0x1000
add c5 0 a5
add c5 0 b5
region a6 alias 0x1000 c5 0
region b6 alias 0x1000 c5 0
region c6 container 0x1000
add c6 0 a6
add c6 0 b6
region a7 alias 0x1000 c6 0
region b7 alias 0x1000 c6 0
region c7 container 0x1000
add c7 0 a7
add c7 0 b7
region a8 alias 0x1000 c7 0
region b8 alias 0x1000 c7 0
region c8 container 0x1000
add c8 0 a8
add c8 0 b8
region a9 alias 0x1000 c8 0
region b9 alias 0x1000 c8 0
region c9 container 0x1000
add c9 0 a9
add c9 0 b9
region a10 alias 0x1000 c9 0
region b10 alias 0x1000 c9 0
region c10 container 0x1000
add c10 0 a10
add c10 0 b10
region a11 alias 0x1000 c10 0
region b11 alias 0x1000 c10 0
region c11 container 0x1000
add c11 0 a11
add c11 0 b11
region a12 alias 0x1000 c11 0
region b12 alias 0x1000 c11 0
region c12 container 0x1000
add c12 0 a12
add c12 0 b12
region a13 alias 0x1000 c12 0
region b13 alias 0x1000 c12 0
region c13 container 0x1000
add c13 0 a13
add c13 0 b13
region a14 alias 0x1000 c13 0
region b14 alias 0x1000 c13 0
region c14 container 0x1000
add c14 0 a14
add c14 0 b14
region a15 alias 0x1000 c14 0
region b15 alias 0x1000 c14 0
region c15 container 0x1000
add c15 0 a15
add c15 0 b15
