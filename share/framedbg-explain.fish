# Completions of framedbg-explain for fish.
complete -c framedbg-explain -l help -d 'Shows the options'
