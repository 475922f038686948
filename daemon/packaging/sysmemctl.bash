# Completes the command line of sysmemctl in bash.
_sysmemctl() {
  local word=${COMP_WORDS[COMP_CWORD]} before=${COMP_WORDS[COMP_CWORD - 1]}
  COMPREPLY=()
  case $before in
    --socket) mapfile -t COMPREPLY < <(compgen -f -- "$word") ;;
    transcript) mapfile -t COMPREPLY < <(compgen -W "$(id -u)" -- "$word") ;;
    *) mapfile -t COMPREPLY < <(compgen -W 'status cores clients nodes buffers waits transcript --socket --json --follow --help
      --version' -- "$word") ;;
  esac
}
complete -F _sysmemctl sysmemctl
