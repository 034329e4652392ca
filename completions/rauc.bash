# Completion of the words of `rauc` in bash. Source this file, or put it where bash looks for such
# files, as /usr/share/bash-completion/completions/rauc.

# The slots of a configuration, and the names that its boot loader has for them.
_rauc_slots() {
  sed -n 's/^[[:blank:]]*\[slot\.\([^][]*\)\][[:blank:]]*$/\1/p' "$1" 2> /dev/null
}

_rauc_bootnames() {
  sed -n 's/^[[:blank:]]*bootname[[:blank:]]*=[[:blank:]]*//p' "$1" 2> /dev/null
}

# _rauc_offer WORD..: those that begin with the word at hand.
_rauc_offer() {
  local offered
  for offered in "$@"; do
    [[ $offered == "$word"* ]] && COMPREPLY+=("$offered")
  done
}

_rauc_files() {
  compopt -o filenames 2> /dev/null
  mapfile -t COMPREPLY < <(compgen -f -- "$word")
}

# Bundles, and the folders that may have some.
_rauc_bundles() {
  compopt -o filenames 2> /dev/null
  mapfile -t COMPREPLY < <(compgen -f -X '!*.raucb' -- "$word"; compgen -d -- "$word")
}

_rauc() {
  local word=${COMP_WORDS[COMP_CWORD]} conf=/etc/rauc/system.conf
  local given i wants='' options=yes positionals=() command names
  COMPREPLY=()
  for ((i = 1; i < COMP_CWORD; i++)); do
    given=${COMP_WORDS[i]}
    # Bash cuts `--conf=FILE` at its `=`, which stands as a word of its own.
    if [ -n "$wants" ]; then
      [ "$given" = = ] && continue
      [ "$wants" = conf ] && conf=$given
      wants=''
    elif [ -z "$options" ]; then
      positionals+=("$given")
    else
      case $given in
        --) options='' ;;
        -c | --conf) wants=conf ;;
        --override-boot-slot) wants=booted ;;
        --output-format) wants=format ;;
        --conf=*) conf=${given#--conf=} ;;
        -c*) conf=${given#-c} conf=${conf#=} ;;
        -?*) ;;
        *) positionals+=("$given") ;;
      esac
    fi
  done
  [ -n "$wants" ] && [ "$word" = = ] && word=''
  command=${positionals[0]-}

  if [ "$wants" = conf ]; then
    _rauc_files
  elif [ "$wants" = booted ]; then
    mapfile -t names < <(_rauc_bootnames "$conf" && _rauc_slots "$conf")
    _rauc_offer "${names[@]}"
  elif [ "$wants" = format ]; then
    case $command in info | status) _rauc_offer readable shell ;; esac
  elif [ -n "$options" ] && [[ $word == -* ]]; then
    _rauc_offer -c --conf --override-boot-slot -h --help
    [ "$command" = install ] && _rauc_offer --ignore-compatible
    [ "$command" = info ] && _rauc_offer --output-format
    # A mark allows neither of the two.
    [ "$command" = status ] && [ ${#positionals[@]} = 1 ] && _rauc_offer --output-format --detailed
  elif [ ${#positionals[@]} = 0 ]; then
    _rauc_offer install status write-slot info
  elif [ "$command" = write-slot ] && [ ${#positionals[@]} = 1 ]; then
    mapfile -t names < <(_rauc_slots "$conf")
    _rauc_offer "${names[@]}"
  elif [ "$command" = write-slot ] && [ ${#positionals[@]} = 2 ]; then
    _rauc_files
  elif [[ $command == @(install|info) ]] && [ ${#positionals[@]} = 1 ]; then
    _rauc_bundles
  elif [ "$command" = status ] && [ ${#positionals[@]} = 1 ]; then
    _rauc_offer mark-good mark-bad mark-active
  elif [ "$command" = status ] && [[ ${positionals[1]} == mark-* ]] && [ ${#positionals[@]} = 2 ]; then
    mapfile -t names < <(_rauc_slots "$conf")
    _rauc_offer booted other "${names[@]}"
  fi
}

complete -F _rauc rauc
