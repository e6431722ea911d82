# Completion of msrp in bash: the commands, the flags of each, and paths.
_msrp() {
  local word=${COMP_WORDS[COMP_CWORD]} before=${COMP_WORDS[COMP_CWORD - 1]} words
  COMPREPLY=()
  if [ "$COMP_CWORD" = 1 ]; then
    words='sim run audit report check help --help'
  elif [ "$before" = --order ]; then
    words='asc desc rot'
  else
    case ${COMP_WORDS[1]} in
      sim) words='--order --ahead --help' ;;
      run) words='--ahead --help' ;;
      audit) words='--parallel --help' ;;
      report) words='--help' ;;
      check) words='--text --help' ;;
      help) words='sim run audit report check' ;;
    esac
  fi
  if [[ $COMP_CWORD == 1 || $word == -* || $before == --order || ${COMP_WORDS[1]} == help ]]; then
    mapfile -t COMPREPLY < <(compgen -W "$words" -- "$word")
  fi
}
complete -o default -F _msrp msrp
