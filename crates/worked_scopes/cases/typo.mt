region sys container 64K
region uart io 8 lach
space memory sys
