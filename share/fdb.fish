# Completions of fdb for fish.
complete -c fdb -s x -r -d 'Runs the lines of a file first'
complete -c fdb -r -l diff -d 'Compares two captures'
complete -c fdb -r -l start -d 'Runs the lines of a file before all else'
complete -c fdb -l batch -d 'No prompt: plain text, one fact a line'
complete -c fdb -x -l at -d 'The position at the start'
complete -c fdb -x -l workers -a '1 2 4 8 16 32 64' -d 'The number of threads that draw, from 1 to 64'
complete -c fdb -r -l program -d 'framedbg'
complete -c fdb -l help -d 'Shows the options'
