# Completions of framedbg-view for bash.
_framedbg_view() {
  local word=${COMP_WORDS[COMP_CWORD]} before=${COMP_WORDS[COMP_CWORD - 1]}
  case $before in
    --workers) COMPREPLY=($(compgen -W "1 2 4 8 16 32 64" -- "$word")) && return ;;
    --port) return ;;
    --program) COMPREPLY=($(compgen -c -- "$word") $(compgen -f -- "$word")) && return ;;
  esac
  if [[ $word == -* ]]; then
    COMPREPLY=($(compgen -W "--program --workers --port --no-browser --help" -- "$word"))
  else
    COMPREPLY=($(compgen -f -X '!*.json' -- "$word") $(compgen -d -- "$word"))
  fi
}
complete -o filenames -F _framedbg_view framedbg-view
