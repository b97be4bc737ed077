region A container 1K  # a byte that may not stand outside a comment

space S A 
