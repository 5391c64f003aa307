# fish completion for pmfarm-page
complete -c pmfarm-page -l profile -x -a '1 2' -d 'the profile'
complete -c pmfarm-page -l run -x -d 'the run in the name of each section'
complete -c pmfarm-page -l program -r -F -d 'the program pmfarm'
complete -c pmfarm-page -l report -r -F -d 'a report, in place of a log'
complete -c pmfarm-page -s h -l help -d 'print help'
