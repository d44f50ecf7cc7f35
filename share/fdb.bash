# Completions of fdb for bash.
_fdb() {
  local word=${COMP_WORDS[COMP_CWORD]} before=${COMP_WORDS[COMP_CWORD - 1]}
  case $before in
    --workers) COMPREPLY=($(compgen -W "1 2 4 8 16 32 64" -- "$word")) && return ;;
    --at) return ;;
    -x|--start) COMPREPLY=($(compgen -f -X '!*.fdb' -- "$word") $(compgen -d -- "$word")) && return ;;
    --program) COMPREPLY=($(compgen -c -- "$word") $(compgen -f -- "$word")) && return ;;
  esac
  if [[ $word == -* ]]; then
    COMPREPLY=($(compgen -W "-x --diff --start --batch --at --workers --program --help" -- "$word"))
  else
    COMPREPLY=($(compgen -f -X '!*.json' -- "$word") $(compgen -d -- "$word"))
  fi
}
complete -o filenames -F _fdb fdb
