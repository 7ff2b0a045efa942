# Completion of dicomdir-slurm(1) for fish. docs/generate makes this file.

complete -c dicomdir-slurm -w 'dicomdir index'
complete -c dicomdir-slurm -s j -x \
    -d 'Most tasks; else one for each 2000 names, and at most 1000'
complete -c dicomdir-slurm -l per-task -x \
    -d 'Each task stages N parts at a time; else one'
complete -c dicomdir-slurm -l wait \
    -d 'Waits for the jobs, and prints what they say'
complete -c dicomdir-slurm -l resume -x -a '(__fish_complete_directories)' \
    -d 'Goes on with a run that ended early and named FOLDER; no SRC is given then'
complete -c dicomdir-slurm -l part-options -x \
    -d 'More words for sbatch, of the parts alone'
complete -c dicomdir-slurm -l last-options -x \
    -d 'More words for sbatch, of the last job alone'
