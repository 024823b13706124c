# Completes the words of st80 in bash: `source tools/completion/st80.bash`.

_st80() {
  local word=${COMP_WORDS[COMP_CWORD]} command=${COMP_WORDS[1]}
  COMPREPLY=()
  if ((COMP_CWORD == 1)); then
    mapfile -t COMPREPLY < <(compgen -W 'once import export clean condense session build drill' -- "$word")
  elif [[ $command == import && $word == -* ]]; then
    mapfile -t COMPREPLY < <(compgen -W '--globals --symbols --entries --words' -- "$word")
  elif [[ $COMP_CWORD == 2 && $command =~ ^(export|clean|condense|session)$ ]]; then
    compopt -o filenames 2>/dev/null # (blanks in names are quoted)
    mapfile -t COMPREPLY < <(compgen -f -X '!*.roots' -- "$word" | sed 's/\.roots$//') # the stores, by their roots files
  fi
}
complete -o default -F _st80 st80 # (other words are names of files)
