region sys container 64K
	add sys 0x1OO0 uart prio 1 # the letter O
