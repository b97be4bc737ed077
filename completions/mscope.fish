# Completion for mscope: its commands, their flags, files, and the address spaces of a script.
function __mscope_words
    # The words after the command that are no flags.
    string match -v -- '--*' (commandline -opc)[3..-1]
end

function __mscope_spaces
    set -l file (__mscope_words)[1]
    test -r "$file"; and string replace -rf '^\s*space\s+(\S+).*' '$1' <$file
end

complete -c mscope -n __fish_use_subcommand -f
complete -c mscope -n __fish_use_subcommand -l version -d 'tells the version'
complete -c mscope -l help -s h -d 'tells the words'
complete -c mscope -n 'not __fish_use_subcommand' -l json -d 'writes the answer as one JSON text'
complete -c mscope -n __fish_use_subcommand -a why -d 'why a region answers an address, and why the others do not'
complete -c mscope -n __fish_use_subcommand -a lint -d 'what looks wrong in a script and its map'
complete -c mscope -n __fish_use_subcommand -a diff -d 'how the views of two scripts differ'
complete -c mscope -n __fish_use_subcommand -a slots -d 'the memory slots for a hypervisor'
complete -c mscope -n __fish_use_subcommand -a draw -d 'a picture of a view'
complete -c mscope -n __fish_use_subcommand -a explain -d 'what is wrong with a script, or what a refusal means'
complete -c mscope -n __fish_use_subcommand -a import -d 'a script of what the monitor of QEMU printed'
complete -c mscope -n __fish_use_subcommand -a check -d 'whether a script shows what the monitor printed'
complete -c mscope -n '__fish_seen_subcommand_from draw' -l svg -d 'draws a file of SVG in place of text'
complete -c mscope -n '__fish_seen_subcommand_from import' -l space -x -d 'takes these address spaces alone'
complete -c mscope -n '__fish_seen_subcommand_from explain' -a 'byte word name number count place long F(seq 20)'
complete -c mscope -n '__fish_seen_subcommand_from why draw; and test (count (__mscope_words)) -eq 1' -f -a '(__mscope_spaces)'
