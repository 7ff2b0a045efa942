# Completion of dicomdir-parallel(1) for fish. docs/generate makes this file.

complete -c dicomdir-parallel -w 'dicomdir index'
complete -c dicomdir-parallel -s j -x \
    -d 'How many parts are staged at a time, on each host; by default as many as it has processors'
complete -c dicomdir-parallel -l hosts -r -F \
    -d 'Works on these hosts (parallel --sshloginfile FILE)'
complete -c dicomdir-parallel -l resume -x -a '(__fish_complete_directories)' \
    -d 'Goes on with a run that ended early and named FOLDER; no SRC is given then'
