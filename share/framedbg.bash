# Completions of framedbg for bash.
_framedbg() {
  local word=${COMP_WORDS[COMP_CWORD]} before=${COMP_WORDS[COMP_CWORD - 1]} command=${COMP_WORDS[1]} options="--help"
  case $before in
    --workers) COMPREPLY=($(compgen -W "1 2 4 8 16 32 64" -- "$word")) && return ;;
    --at) return ;;
  esac
  if ((COMP_CWORD == 1)); then
    COMPREPLY=($(compgen -W "run image events help --help --version" -- "$word"))
    return
  fi
  case $command in
    run) options="--workers --help" ;;
    image) options="--workers --at --help" ;;
    help) COMPREPLY=($(compgen -W "run image events" -- "$word")) && return ;;
  esac
  if [[ $word == -* ]]; then
    COMPREPLY=($(compgen -W "$options" -- "$word"))
  else
    COMPREPLY=($(compgen -f -X '!*.json' -- "$word") $(compgen -d -- "$word"))
  fi
}
complete -o filenames -F _framedbg framedbg
