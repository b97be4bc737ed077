region ram ram
