# Completion of pie-inspect's commands for bash: `. pie-inspect.bash`, or a copy named `pie-inspect` in ~/.local/share/bash-completion/completions.
_pie_inspect() {
  COMPREPLY=()
  local commands='check why tasks who graph store doctor help --help --version'
  case $COMP_CWORD in
    1) mapfile -t COMPREPLY < <(compgen -W "$commands" -- "$2") ;;
    2)
      case $3 in
        who) mapfile -t COMPREPLY < <(compgen -f -- "$2") ;;
        help) mapfile -t COMPREPLY < <(compgen -W "$commands" -- "$2") ;;
        why) mapfile -t COMPREPLY < <(compgen -W --json -- "$2") ;;
        graph) mapfile -t COMPREPLY < <(compgen -W '--dot --json' -- "$2") ;;
      esac
      ;;
  esac
}
complete -F _pie_inspect pie-inspect
