# Completion of xif's words for bash: the commands, and then files by their kind. Numbers are not completed.
_xif() {
  local word=${COMP_WORDS[COMP_CWORD]} pattern=
  COMPREPLY=()
  if [ "$COMP_CWORD" = 1 ]; then
    mapfile -t COMPREPLY < <(compgen -W 'raw step run judge gen' -- "$word")
    return
  fi
  case ${COMP_WORDS[1]}$COMP_CWORD in
    raw2) pattern=bin ;;
    step2 | run2 | judge2) pattern=toml ;;
    judge3) pattern=vcd ;;
    *) return ;;
  esac
  compopt -o filenames 2>/dev/null
  mapfile -t COMPREPLY < <(compgen -f -X "!*.$pattern" -- "$word"; compgen -d -- "$word")
}
complete -F _xif xif
