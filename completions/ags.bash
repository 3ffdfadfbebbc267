# Completion of bash for ags, by whatever path it is called, and for bin/ags-unproved, which takes the same words. Load it by
#
#   source completions/ags.bash
#
# The first word is a command, and each further one a file: those of the suffix that such a file has in examples/, and folders, where
# there is one that begins as the word does, and else any file.

_ags() {
  local current=${COMP_WORDS[COMP_CWORD]} suffixes suffix
  COMPREPLY=()
  if [ "$COMP_CWORD" -eq 1 ]; then
    mapfile -t COMPREPLY < <(compgen -W \
      'assemble compare tape xref certify run guard budget scales edits workload' -- "$current")
    return
  fi

  case ${COMP_WORDS[1]} in
    assemble | tape | xref) suffixes=(lem toml) ;;
    compare) suffixes=(lem lst toml) ;;
    certify) suffixes=(lem cert toml) ;;
    run) suffixes=(lem script toml) ;;
    guard) suffixes=(lem script cert toml) ;;
    budget) suffixes=(lem cert times toml) ;;
    scales) suffixes=(lem cert scales toml) ;;
    edits) suffixes=(lem cert edits toml) ;;
    *) return ;;
  esac
  suffix=${suffixes[COMP_CWORD - 2]-}
  [ -n "$suffix" ] || return

  # There are no such options where the function is called by hand.
  compopt -o filenames -o nosort 2>/dev/null
  mapfile -t COMPREPLY < <(compgen -f -X "!*.$suffix" -- "$current" | sort)
  if [ "${#COMPREPLY[@]}" -gt 0 ]; then
    mapfile -t -O "${#COMPREPLY[@]}" COMPREPLY < <(compgen -d -- "$current" | sort)
  else
    mapfile -t COMPREPLY < <(compgen -f -- "$current" | sort)
  fi
}

complete -F _ags ags ags-unproved
