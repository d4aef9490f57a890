# Completions of msrepack for fish: commands, options, lengths, files and folders.
set -l commands repack feed list check compare archive verify replace help
set -l none "not __fish_seen_subcommand_from $commands"
complete -c msrepack -f
complete -c msrepack -n $none -a repack -d 'Write the segments of a file in the fewest records'
complete -c msrepack -n $none -a feed -d 'Repack standard input while it comes'
complete -c msrepack -n $none -a list -d 'List the segments of a file'
complete -c msrepack -n $none -a check -d 'Say whether a report shows that records are the fewest'
complete -c msrepack -n $none -a compare -d 'Say whether two files have the same segments'
complete -c msrepack -n $none -a archive -d 'Repack every day file of an SDS archive'
complete -c msrepack -n $none -a verify -d 'Say of every day file of an SDS archive whether its repack holds'
complete -c msrepack -n $none -a replace -d 'Put the records of an SDS archive in the place of its files, or undo that'
complete -c msrepack -n $none -a help -d 'Print help'
complete -c msrepack -n $none -s V -l version -d 'Print the version'
complete -c msrepack -s h -l help -d 'Print help'
complete -c msrepack -n '__fish_seen_subcommand_from help' -a 'repack feed list check compare archive verify replace'

complete -c msrepack -n '__fish_seen_subcommand_from repack feed list check compare' -F
complete -c msrepack -n '__fish_seen_subcommand_from archive verify replace' -a '(__fish_complete_directories)'
complete -c msrepack -n '__fish_seen_subcommand_from repack feed archive' -x -l length \
    -a '256 512 1024 2048 4096 8192 16384 32768 65536' -d 'Bytes of each record'
complete -c msrepack -n '__fish_seen_subcommand_from archive' -x -l length -a same -d 'That of each first record'
complete -c msrepack -n '__fish_seen_subcommand_from repack feed archive' -l no-int24 \
    -d 'Pack without 24-bit integers, which libmseed 2 cannot read'
complete -c msrepack -n '__fish_seen_subcommand_from repack feed list compare archive' -x -l tolerance \
    -d 'Microseconds by which a record may be early or late'
complete -c msrepack -n '__fish_seen_subcommand_from repack feed list archive' -l strict \
    -d 'Refuse a record whose last sample is not its reverse constant'
complete -c msrepack -n '__fish_seen_subcommand_from archive verify' -r -F -l known \
    -d 'Tell as known what lines of earlier runs tell as refused'
complete -c msrepack -n '__fish_seen_subcommand_from archive verify' -l quiet \
    -d 'Print only what is to be looked at, and the counts'
complete -c msrepack -n '__fish_seen_subcommand_from list archive verify' -l json -d 'Print each line as an object of JSON'
complete -c msrepack -n '__fish_seen_subcommand_from archive verify replace' -x -l below \
    -d 'Walk only this folder, by its path from ROOT'
complete -c msrepack -n '__fish_seen_subcommand_from archive' -l resume -d 'Leave files alone that an earlier walk did'
complete -c msrepack -n '__fish_seen_subcommand_from archive' -l check -d 'Hold records against their report and their file'
complete -c msrepack -n '__fish_seen_subcommand_from archive' -l only-smaller -d 'Keep only what gets smaller in bytes'
complete -c msrepack -n '__fish_seen_subcommand_from archive' -l keep-old \
    -d 'Keep what an earlier walk made of a file that is refused, or has fewer samples'
complete -c msrepack -n '__fish_seen_subcommand_from archive' -l names \
    -d 'Keep only files whose segments are of the channel and the day of their path'
complete -c msrepack -n '__fish_seen_subcommand_from verify' -l names \
    -d 'Tell files whose segments are not of the channel and the day of their path'
complete -c msrepack -n '__fish_seen_subcommand_from replace' -l undo -d 'Put the originals back'
complete -c msrepack -n '__fish_seen_subcommand_from replace' -l only-smaller -d 'Only days whose records are fewer bytes'
complete -c msrepack -n '__fish_seen_subcommand_from archive replace' -x -l older-than \
    -d 'Only days whose file was not changed for so many days'
complete -c msrepack -n '__fish_seen_subcommand_from replace' -l touch -d 'Give the records the time of now'
complete -c msrepack -n '__fish_seen_subcommand_from replace' -l int24 -d 'Also days whose records have 24-bit integers'
complete -c msrepack -n '__fish_seen_subcommand_from archive' -l bytes -d 'Tell bytes read and written too'
complete -c msrepack -n '__fish_seen_subcommand_from archive' -l dry-run -d 'Tell what repacking would give, and write nothing'
