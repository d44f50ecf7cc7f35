# Completions of framedbg-night for bash.
_framedbg_night() {
  local word=${COMP_WORDS[COMP_CWORD]} before=${COMP_WORDS[COMP_CWORD - 1]}
  case $before in
    --processes) COMPREPLY=($(compgen -W "1 2 4 8 16 32 64" -- "$word")) && return ;;
    --tolerance | --seconds | --sbatch) return ;;
    --program) COMPREPLY=($(compgen -c -- "$word") $(compgen -f -- "$word")) && return ;;
  esac
  if [[ $word == -* ]]; then
    COMPREPLY=($(compgen -W "--results --tolerance --seconds --processes --slurm --sbatch --driver --allow-missing --again --program --help" -- "$word"))
  else
    COMPREPLY=($(compgen -d -- "$word"))
  fi
}
complete -o filenames -F _framedbg_night framedbg-night
