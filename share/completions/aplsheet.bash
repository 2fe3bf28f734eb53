# Completes the words of aplsheet in bash. COMPREPLY stays empty in the place of a file, so bash offers files.
_aplsheet() {
  local word=${COMP_WORDS[COMP_CWORD]}
  COMPREPLY=()
  if [[ $COMP_CWORD = 1 ]]; then
    mapfile -t COMPREPLY < <(compgen -W "run table --help" -- "$word")
  elif [[ $word = -* && ${COMP_WORDS[1]} = table ]]; then
    mapfile -t COMPREPLY < <(compgen -W "--header --help" -- "$word")
  elif [[ $word = -* ]]; then
    mapfile -t COMPREPLY < <(compgen -W "--help" -- "$word")
  fi
}
complete -o default -F _aplsheet aplsheet
