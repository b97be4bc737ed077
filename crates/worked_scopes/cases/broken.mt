region sys container 64K
region ram ram 4K extra
space memory sys
