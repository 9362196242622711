# Completion of the words of circ for bash.
_circ() {
  local word=${COMP_WORDS[COMP_CWORD]} run=${COMP_WORDS[1]-} words
  COMPREPLY=()
  case $COMP_CWORD:$run:$word in
    6:serve:@* | 3:send:@*) mapfile -t COMPREPLY < <(compgen -P @ -f -- "${word#@}") ;;
  esac
  case $COMP_CWORD:$run in
    1:*) mapfile -t COMPREPLY < <(compgen -W "file import report audit migrate serve send help" -- "$word") ;;
    2:import) mapfile -t COMPREPLY < <(compgen -W --check -- "$word"; compgen -f -- "$word") ;;
    2:file | 2:report | 2:audit | 2:migrate | 2:serve | 3:import) mapfile -t COMPREPLY < <(compgen -f -- "$word") ;;
    3:audit) mapfile -t COMPREPLY < <(compgen -W all -- "$word") ;;
    3:report) mapfile -t COMPREPLY < <(compgen -W "overdue till shelf" -- "$word") ;;
    # the commands as the program lists them
    4:file | 5:send)
      words=$("${COMP_WORDS[0]}" help 2>/dev/null | sed -n 's/^  \([a-z-]*\).*/\1/p')
      mapfile -t COMPREPLY < <(compgen -W "$words" -- "$word")
      ;;
  esac
}
complete -o filenames -F _circ circ
