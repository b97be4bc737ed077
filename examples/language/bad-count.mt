region A container 1K  # one token more than the last option
add A 0 A prio 1 2
