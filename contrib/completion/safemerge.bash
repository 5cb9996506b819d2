# Completion of safemerge in bash: commands, the options of each with their words, and files.
# Source it, or put it as `safemerge` into ~/.local/share/bash-completion/completions.
_safemerge() {
  local word=${COMP_WORDS[COMP_CWORD]} before=${COMP_WORDS[COMP_CWORD - 1]}
  local command=${COMP_WORDS[1]} options=
  local commands="check verify replay print suggest gen explain batch trim help version"
  COMPREPLY=()
  if [ "$COMP_CWORD" -eq 1 ]; then
    mapfile -t COMPREPLY < <(compgen -W "$commands" -- "$word")
    return
  fi
  case $command in
    check) options="--steps --turns --workers --exact --seconds --deeper --why" ;;
    suggest | gen) options="--steps --turns --workers --exact --seconds" ;;
    replay) options="--turns --workers" ;;
    verify) options="--workers" ;;
    print) options="--copy" ;;
    explain) options="--turns" ;;
    batch) options="--cache --steps --turns --workers --exact" ;;
  esac
  case $before in
    --cache | --steps | --turns | --workers | --seconds) return ;;
    --copy)
      mapfile -t COMPREPLY < <(compgen -W "base a b candidate" -- "$word")
      return
      ;;
  esac
  case $command,$word in
    *,-*) mapfile -t COMPREPLY < <(compgen -W "$options" -- "$word") ;;
    check,* | verify,* | replay,* | print,* | suggest,* | explain,* | batch,* | trim,*)
      compopt -o filenames 2>/dev/null
      mapfile -t COMPREPLY < <(compgen -f -- "$word")
      ;;
  esac
}
complete -F _safemerge safemerge
