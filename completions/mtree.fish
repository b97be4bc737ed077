# Completion for mtree: its four words.
complete -c mtree -f
complete -c mtree -n __fish_use_subcommand -a run -d 'runs the script on the standard input'
complete -c mtree -n __fish_use_subcommand -a race -d 'runs it, with the lines of its block beside one another'
complete -c mtree -n __fish_use_subcommand -a make -d 'writes a script that is drawn from a seed'
complete -c mtree -n __fish_use_subcommand -a demo -d 'runs the script of a seed, and counts what it wrote'
