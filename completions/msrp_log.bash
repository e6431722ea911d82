# Completion of msrp_log in bash: the commands, the flags of each, and paths.
_msrp_log() {
  local word=${COMP_WORDS[COMP_CWORD]} words
  COMPREPLY=()
  if [ "$COMP_CWORD" = 1 ]; then
    words='audit why report state help --help'
  else
    case ${COMP_WORDS[1]} in
      audit|why) words='--op --slack --skew --tick --backlog --begin --help' ;;
      report) words='--op --slack --skew --tick --backlog --help' ;;
      state) words='--op --slack --skew --tick --backlog --begin --at --help' ;;
      help) words='audit why report state' ;;
    esac
  fi
  if [[ $COMP_CWORD == 1 || $word == -* || ${COMP_WORDS[1]} == help ]]; then
    mapfile -t COMPREPLY < <(compgen -W "$words" -- "$word")
  fi
}
complete -o default -F _msrp_log msrp_log
