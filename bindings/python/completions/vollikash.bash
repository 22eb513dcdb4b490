# Completion of the command vollikash for bash.

_vollikash() {
  local current=${COMP_WORDS[COMP_CWORD]} previous=${COMP_WORDS[COMP_CWORD - 1]}
  local command='' options='' word
  COMPREPLY=()
  for word in "${COMP_WORDS[@]:1:COMP_CWORD-1}"; do
    if [[ $word != -* ]]; then
      command=$word
      break
    fi
  done
  case $command in
    '') options='show stat check html invert concat select number-keys apply shell --version' ;;
    show) options='--json --schema' ;;
    html) options='--schema --output' ;;
    invert | concat | number-keys) options='--output' ;;
    select) options='--table --output' ;;
    apply) options='--data --notfound --conflict --constraint --create --ignore-noop --interactive' ;;
  esac
  case $previous in
    --data | --conflict) options='omit replace abort' ;;
    --notfound | --constraint) options='omit abort' ;;
    *)
      # The name of a file is completed if there is nothing else.
      if [[ -n $command && $current != -* ]]; then
        return
      fi
      options+=' --help'
      ;;
  esac
  mapfile -t COMPREPLY < <(compgen -W "$options" -- "$current")
}

complete -o bashdefault -o default -F _vollikash vollikash
