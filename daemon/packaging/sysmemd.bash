# Completes the command line of sysmemd in bash.
_sysmemd() {
  local word=${COMP_WORDS[COMP_CWORD]} before=${COMP_WORDS[COMP_CWORD - 1]}
  local options='--socket --mode --pages --nodes --collections --trackers --handles --connections --descriptors --uids --share
    --reserve --transcripts --allow-old-kernel --help --version'
  COMPREPLY=()
  case $before in
    --socket) mapfile -t COMPREPLY < <(compgen -f -- "$word") ;;
    --transcripts) mapfile -t COMPREPLY < <(compgen -d -- "$word") ;;
    --mode | --pages | --nodes | --collections | --trackers | --handles | --connections | --descriptors | --uids | --share) ;;
    *) mapfile -t COMPREPLY < <(compgen -W "$options" -- "$word") ;;
  esac
}
complete -F _sysmemd sysmemd
