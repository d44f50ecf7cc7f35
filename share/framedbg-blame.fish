# Completions of framedbg-blame for fish.
complete -c framedbg-blame -l json -d 'Differ, suspects, changes and findings as JSON'
complete -c framedbg-blame -l driver -d 'The picture is what a driver drew'
complete -c framedbg-blame -x -l tolerance -d 'How far a channel may be off'
complete -c framedbg-blame -x -l seconds -d 'The time for a search'
complete -c framedbg-blame -x -l processes -a '1 2 4 8 16 32 64' -d 'Runs of framedbg at a time'
complete -c framedbg-blame -r -l write -d 'Keeps the capture after the best change'
complete -c framedbg-blame -r -l program -d 'framedbg'
complete -c framedbg-blame -l help -d 'Shows the options'
