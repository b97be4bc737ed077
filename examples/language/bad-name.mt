region A container 1K  # the first token at fault decides
space 1S A extra
