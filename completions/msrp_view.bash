# Completion of msrp_view in bash: its flags, and paths.
_msrp_view() {
  local word=${COMP_WORDS[COMP_CWORD]}
  COMPREPLY=()
  if [[ $word == -* ]]; then
    mapfile -t COMPREPLY < <(compgen -W '--text --svg --from --to --why --vcd --gtkw --perfetto --html --tick --help --version' -- "$word")
  fi
}
complete -o default -F _msrp_view msrp_view
