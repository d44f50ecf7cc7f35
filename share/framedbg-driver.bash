# Completions of framedbg-driver for bash.
_framedbg_driver() {
  local word=${COMP_WORDS[COMP_CWORD]} before=${COMP_WORDS[COMP_CWORD - 1]} command=${COMP_WORDS[1]}
  local driver="--api --device --list --viewport --raw --linear --convention --plant --help"
  case $before in
    --api) COMPREPLY=($(compgen -W "gl es vulkan" -- "$word")) && return ;;
    --linear) COMPREPLY=($(compgen -W "smooth noperspective" -- "$word")) && return ;;
    --convention) COMPREPLY=($(compgen -W "first turned" -- "$word")) && return ;;
    --kind) COMPREPLY=($(compgen -W "any colour coverage depth depth-rounding depth-test rounding" -- "$word")) && return ;;
    --viewport) COMPREPLY=($(compgen -W "target 4096 8192 16384" -- "$word")) && return ;;
    --device | --plant | --at | --bits | --tolerance | --scenes | --seed | --only | --scene | --seconds) return ;;
    --program) COMPREPLY=($(compgen -c -- "$word") $(compgen -f -- "$word")) && return ;;
    --junit) COMPREPLY=($(compgen -f -- "$word")) && return ;;
    --write | --pictures) COMPREPLY=($(compgen -d -- "$word")) && return ;;
  esac
  if ((COMP_CWORD == 1)); then
    COMPREPLY=($(compgen -W "draw compare try reduce rules --list --help" -- "$word"))
  elif [[ $word == -* ]]; then
    case $command in
      draw) COMPREPLY=($(compgen -W "--at --each --pictures $driver" -- "$word")) ;;
      compare) COMPREPLY=($(compgen -W "--bits --going-on --all --blame --program --tolerance --json --junit $driver" -- "$word")) ;;
      try) COMPREPLY=($(compgen -W "--scenes --seed --only --bits --features --scene --write --program --tolerance --json --junit $driver" -- "$word")) ;;
      rules) COMPREPLY=($(compgen -W "--program --help" -- "$word")) ;;
      reduce) COMPREPLY=($(compgen -W "--kind --seconds --program $driver" -- "$word")) ;;
    esac
  elif [[ $command != try ]]; then
    COMPREPLY=($(compgen -f -- "$word"))
  fi
}
complete -o filenames -F _framedbg_driver framedbg-driver
