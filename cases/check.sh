#!/usr/bin/env bash
# Runs the cases of this folder with AGS and AGSBENCH, and compares what they print, byte by byte, and their statuses. Prints nothing
# where all is well. Ends with 1 where something differs, and with 2 where nothing can run.
#   cases/check.sh AGS AGSBENCH [FILE..]
# The files of cases, *.cases, have these lines:
#   == TITLE              what the cases below have in common: no file of earlier cases is there
#   # REMARK
#   file NAME             a file, whose text is the lines below
#   run STATUS WORD..     a run of AGS with these words over the files above: its status, and below it what is printed
#   bench STATUS WORD..   the same of AGSBENCH
#   short STATUS WORD..   the same of AGS with 20,000 kilobytes of memory
#   shut STATUS WORD..    the same of AGS whose standard output is closed
#   |LINE                 a line of the text of a file, or of what is printed
#   $ COMMAND             a piece of such a text that a command writes, which is run in this folder
#   !LINE                 a line on standard error, which isn't looked at where the case has none
set -u
[ $# -ge 2 ] || {
  printf 'the words are: AGS AGSBENCH [FILE..]\n' >&2
  exit 2
}
ags=$(realpath -s "$1") bench=$(realpath -s "$2")
for program in "$ags" "$bench"; do
  if [ ! -f "$program" ] || [ ! -x "$program" ]; then
    printf 'no such program: %s\n' "$program" >&2
    exit 2
  fi
done
shift 2
cd "$(dirname "$(readlink -f "${BASH_SOURCE[0]}")")" || exit 2
[ $# -gt 0 ] || set -- *.cases
room=$(mktemp -d) || exit 2
trap 'rm -rf "$room"' EXIT
files=$room/files wanted=$room/wanted said=$room/said told=$room/told
differing=0

tell() {
  printf '%s:%s: %s\n' "$cases" "$1" "$2"
  differing=1
}

# becomes PROGRAM WORD..: the program, as the case has it
becomes() {
  case $how in
    short) ulimit -v 20000 ;;
    shut) exec >&- ;;
  esac
  exec "$@"
}

# starts: the run of an earlier case is over, and the text below belongs to another one
starts() {
  local status
  [ -n "$program" ] || return 0
  (cd "$files" && becomes "$program" "${words[@]:1}" >"$told.out" 2>"$told.err" </dev/null)
  status=$?
  [ "$status" = "${words[0]}" ] || tell "$at" "the status is $status, and ${words[0]} is wanted"
  cmp -s "$told.out" "$wanted" || tell "$at" "what is printed differs: $(diff "$wanted" "$told.out" | head -n 5)"
  if [ -s "$said" ]; then
    cmp -s "$told.err" "$said" || tell "$at" "what is said on standard error differs: $(diff "$said" "$told.err" | head -n 5)"
  fi
  program=
}

# begins KIND PROGRAM WORD..: a run of that kind, which ends where its text does
begins() {
  starts
  how=$1 program=$2
  eval "words=($3)"
  at=$number
  : >"$said"
  exec 3>"$wanted"
}

for cases in "$@"; do
  if [ ! -r "$cases" ]; then
    printf 'no such file: %s\n' "$cases" >&2
    exit 2
  fi
  number=0 at=0 program= how= words=()
  rm -rf "$files" && mkdir "$files"
  exec 3>/dev/null
  while IFS= read -r line || [ -n "$line" ]; do
    number=$((number + 1))
    case $line in
      '|'*) printf '%s\n' "${line#|}" >&3 ;;
      '$ '*) eval "${line#\$ }" >&3 ;;
      '!'*) printf '%s\n' "${line#!}" >>"$said" ;;
      'file '*)
        starts
        exec 3>"$files/${line#file }"
        ;;
      'run '* | 'short '* | 'shut '*) begins "${line%% *}" "$ags" "${line#* }" ;;
      'bench '*) begins run "$bench" "${line#bench }" ;;
      '== '*)
        starts
        exec 3>/dev/null
        rm -rf "$files" && mkdir "$files"
        ;;
      '' | '#'*) ;;
      *) tell "$number" "no line of a case: $line" ;;
    esac
  done <"$cases"
  starts
  [ "$at" -gt 0 ] || tell "$number" 'no run in the whole file'
done
exit "$differing"
