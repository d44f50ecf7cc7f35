# Completions of framedbg-explain for bash.
_framedbg_explain() {
  local word=${COMP_WORDS[COMP_CWORD]}
  if [[ $word == -* ]]; then
    COMPREPLY=($(compgen -W "--help" -- "$word"))
  else
    COMPREPLY=($(compgen -f -X '!*.json' -- "$word") $(compgen -d -- "$word"))
  fi
}
complete -o filenames -F _framedbg_explain framedbg-explain
