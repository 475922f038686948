# Completes the command line of sysmem in bash.
_sysmem() {
  local word=${COMP_WORDS[COMP_CWORD]} before=${COMP_WORDS[COMP_CWORD - 1]} command=${COMP_WORDS[1]}
  local commands='run threads explain draw check explore' options='--pages --help -h'
  COMPREPLY=()
  if [ "$COMP_CWORD" = 1 ]; then
    mapfile -t COMPREPLY < <(compgen -W "$commands help --help --version -h -V" -- "$word")
    return
  fi
  # bash takes the = of --format=dot for a word.
  if [ "$word" = = ]; then
    word=''
  elif [ "$before" = = ]; then
    before=${COMP_WORDS[COMP_CWORD - 2]}
  fi
  case $before in
    --format) mapfile -t COMPREPLY < <(compgen -W 'text dot svg' -- "$word") && return ;;
    --pages | --at | --line | --failure | --outcome | --states | --vanish | --most) return ;;
  esac
  if [ "$command" = help ]; then
    [ "$COMP_CWORD" = 2 ] && mapfile -t COMPREPLY < <(compgen -W "$commands" -- "$word")
  elif [ "${word:0:1}" = - ]; then
    [ "$command" = draw ] && options+=' --format --at --line --failure'
    [ "$command" = explain ] && options+=' --failures --summary'
    [ "$command" = threads ] && options+=' --record --patient'
    [ "$command" = explore ] && options+=' --once --patient --end --vanish --most --outcome --states --certify --list'
    mapfile -t COMPREPLY < <(compgen -W "$options" -- "$word")
  else
    mapfile -t COMPREPLY < <(compgen -f -- "$word")
    compopt -o filenames 2>/dev/null
  fi
}
complete -F _sysmem sysmem
