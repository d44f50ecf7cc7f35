# Completions of framedbg-blame for bash.
_framedbg_blame() {
  local word=${COMP_WORDS[COMP_CWORD]} before=${COMP_WORDS[COMP_CWORD - 1]}
  case $before in
    --processes) COMPREPLY=($(compgen -W "1 2 4 8 16 32 64" -- "$word")) && return ;;
    --tolerance | --seconds) return ;;
    --write) COMPREPLY=($(compgen -f -- "$word")) && return ;;
    --program) COMPREPLY=($(compgen -c -- "$word") $(compgen -f -- "$word")) && return ;;
  esac
  if [[ $word == -* ]]; then
    COMPREPLY=($(compgen -W "--json --driver --tolerance --seconds --processes --write --program --help" -- "$word"))
  else
    COMPREPLY=($(compgen -f -X '!*.@(json|png|pam|ppm)' -- "$word") $(compgen -d -- "$word"))
  fi
}
shopt -s extglob
complete -o filenames -F _framedbg_blame framedbg-blame
