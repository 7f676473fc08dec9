# Completion of pie's commands for bash: `. pie.bash`, or a copy named `pie` in ~/.local/share/bash-completion/completions.
_pie() {
  COMPREPLY=()
  local commands='check fresh build replay demo topdown scan auto cached' json='fresh build replay topdown'
  case $COMP_CWORD in
    1) mapfile -t COMPREPLY < <(compgen -W "$commands" -- "$2") ;;
    2) case " $json " in *" $3 "*) mapfile -t COMPREPLY < <(compgen -W --json -- "$2") ;; esac ;;
  esac
}
complete -F _pie pie
