# Completes the words of sheet in bash. It offers scripts, which end with .apl; if none fits, any file.
_sheet() {
  local word=${COMP_WORDS[COMP_CWORD]#=} before=${COMP_WORDS[COMP_CWORD - 1]}
  if [[ $before = --program || $before = "=" ]]; then # bash splits words at =
    mapfile -t COMPREPLY < <(compgen -f -- "$word")
  elif [[ $word = -* ]]; then
    mapfile -t COMPREPLY < <(compgen -W "- --check --headless --help --port --program --version --web" -- "$word")
  else
    mapfile -t COMPREPLY < <(compgen -d -- "$word"; compgen -f -X "!*.apl" -- "$word")
  fi
}
complete -o filenames -o default -F _sheet sheet
