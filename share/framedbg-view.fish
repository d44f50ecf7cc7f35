# Completions of framedbg-view for fish.
complete -c framedbg-view -r -l program -d 'framedbg'
complete -c framedbg-view -x -l workers -a '1 2 4 8 16 32 64' -d 'The number of threads that draw, from 1 to 64'
complete -c framedbg-view -x -l port -d 'The port'
complete -c framedbg-view -l no-browser -d 'Only prints the address'
complete -c framedbg-view -l help -d 'Shows the options'
