region A container 1K  # machine is the first command or none
par
machine 4K
end
