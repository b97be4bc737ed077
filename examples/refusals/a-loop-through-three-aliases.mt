# A container cannot have a child that leads back to it, here over three aliases.
region A container 0x1000
region X alias 0x1000 A 0
region Y alias 0x1000 X 0
region Z alias 0x1000 Y 0
add A 0 Z
