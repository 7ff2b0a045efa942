# Completion of dicomdir(1) for fish. docs/generate makes this file.

complete -c dicomdir -f
complete -c dicomdir -n '__fish_use_subcommand; or __fish_seen_subcommand_from help' -a index \
    -d 'Makes a file-set of image files: copies them, writes its DICOMDIR'
complete -c dicomdir -n '__fish_use_subcommand; or __fish_seen_subcommand_from help' -a merge \
    -d 'Makes a file-set of others: copies their images, writes its DICOMDIR'
complete -c dicomdir -n '__fish_use_subcommand; or __fish_seen_subcommand_from help' -a withdraw \
    -d 'Makes a file-set of one without some images, which no merge brings back'
complete -c dicomdir -n '__fish_use_subcommand; or __fish_seen_subcommand_from help' -a stage \
    -d 'Copies files to a pile, with a list of what they are, for publish'
complete -c dicomdir -n '__fish_use_subcommand; or __fish_seen_subcommand_from help' -a publish \
    -d 'Makes a file-set of piles, as index does of their sources'
complete -c dicomdir -n '__fish_use_subcommand; or __fish_seen_subcommand_from help' -a check \
    -d 'Checks that the files which a DICOMDIR names are there and unchanged'
complete -c dicomdir -n '__fish_use_subcommand; or __fish_seen_subcommand_from help' -a list \
    -d 'Lists the records of a DICOMDIR, those of other programs too'
complete -c dicomdir -n '__fish_use_subcommand' -a help \
    -d 'Print this message or the help of the given subcommand(s)'
complete -c dicomdir -s h -l help \
    -d 'Print help'
complete -c dicomdir -n '__fish_use_subcommand' -s V -l version \
    -d 'Print version'
complete -c dicomdir -n '__fish_seen_subcommand_from index merge withdraw publish' -l id -x \
    -d 'ID of the file-set, such as DISC1; by default empty'
complete -c dicomdir -n '__fish_seen_subcommand_from index merge withdraw publish' -l uid -x \
    -d 'UID of the file-set; else made from its content'
complete -c dicomdir -n '__fish_seen_subcommand_from index merge withdraw publish' -l max-bytes -x \
    -d 'Most bytes of DICOMDIR, not of the disc, such as 650M or 3G'
complete -c dicomdir -n '__fish_seen_subcommand_from index merge withdraw publish' -l strict \
    -d 'Makes nothing where something would be left out'
complete -c dicomdir -n '__fish_seen_subcommand_from index merge withdraw publish' -l dry-run \
    -d 'Makes nothing, and says what it would make'
complete -c dicomdir -n '__fish_seen_subcommand_from index merge withdraw stage publish check' -l quiet \
    -d 'Shows no progress and no hints'
complete -c dicomdir -n '__fish_seen_subcommand_from index merge withdraw stage publish check list' -l verbose \
    -d 'Shows hints where there is no terminal, too'
complete -c dicomdir -n '__fish_seen_subcommand_from index merge withdraw stage publish check list' -l json \
    -d 'Prints each line as a JSON object'
complete -c dicomdir -n '__fish_seen_subcommand_from index merge stage publish' -l files0-from -r -F \
    -d 'Reads names from FILE, or -, ended by zero bytes'
complete -c dicomdir -n '__fish_seen_subcommand_from index stage' -s k -l keep-going \
    -d 'Skips a SRC that can'\''t be opened or read; the status is then 3'
complete -c dicomdir -n '__fish_seen_subcommand_from merge publish' -l link \
    -d 'Makes hard links to the images in place of copies'
complete -c dicomdir -n '__fish_seen_subcommand_from stage publish' -l from -x -a '(__fish_complete_directories)' \
    -d 'Looks up each path but PILE in FOLDER, and prints it as given'
complete -c dicomdir -n '__fish_seen_subcommand_from check' -l keys \
    -d 'Also compares what each image says of itself with its record'
complete -c dicomdir -n '__fish_seen_subcommand_from check' -l strict \
    -d 'Also finds each file whose record has no digest to compare'
complete -c dicomdir -n '__fish_seen_subcommand_from list' -l long \
    -d 'Also prints names, dates, times, modalities and numbers'
complete -c dicomdir -n '__fish_seen_subcommand_from index' -F
complete -c dicomdir -n '__fish_seen_subcommand_from merge' -a '(__fish_complete_directories)'
complete -c dicomdir -n '__fish_seen_subcommand_from withdraw' -a '(__fish_complete_directories)'
complete -c dicomdir -n '__fish_seen_subcommand_from stage' -F
complete -c dicomdir -n '__fish_seen_subcommand_from publish' -a '(__fish_complete_directories)'
complete -c dicomdir -n '__fish_seen_subcommand_from check' -a '(__fish_complete_directories)'
complete -c dicomdir -n '__fish_seen_subcommand_from list' -a '(__fish_complete_directories)'
