#!/usr/bin/env bash
# Runs each lesson with PROGRAM, or with bin/ags of the repository where none is named, and compares what comes with what
# the lesson stores. Prints nothing where all is well. Ends with 1 where something differs, and with 2 where nothing can run.
#   lessons/check.sh [PROGRAM]
set -u
here=$(cd "$(dirname "$(readlink -f "${BASH_SOURCE[0]}")")" && pwd) || exit 2
program=${1:-$here/../bin/ags}
case $program in
  /*) ;;
  *) program=$PWD/$program ;;
esac
if [ ! -f "$program" ] || [ ! -x "$program" ]; then
  printf 'no such program: %s\n' "${1:-bin/ags}" >&2
  exit 2
fi
room=$(mktemp -d) || exit 2
trap 'rm -rf "$room"' EXIT
differing=0

# tell FILE WHAT: names the lesson and the file, and shows what stands in the file `shown`, if it has anything
tell() {
  printf '%s/%s: %s\n' "$lesson" "$1" "$2"
  cat "$room/shown"
  differing=1
}

# compare STORED STATUS WANTED-STATUS: the file `got` with the stored one
compare() {
  : >"$room/shown"
  if [ ! -f "$1" ]; then
    tell "$1" 'is missing'
    return
  fi
  [ "$2" -eq "$3" ] || tell "$1" "the status is $2, and $3 is wanted"
  diff "$1" "$room/got" >"$room/shown" 2>&1 || tell "$1" 'differs (< as stored, > as printed)'
}

# prints STORED WANTED-STATUS ARGUMENT..: the whole standard output
prints() {
  local stored=$1 wanted=$2 status
  shift 2
  "$program" "$@" >"$room/got" 2>"$room/said"
  status=$?
  compare "$stored" "$status" "$wanted"
}

# ends STORED WANTED-STATUS ARGUMENT..: the last line of the standard output
ends() {
  local stored=$1 wanted=$2 status
  shift 2
  "$program" "$@" >"$room/all" 2>"$room/said"
  status=$?
  tail -n 1 "$room/all" >"$room/got"
  compare "$stored" "$status" "$wanted"
}

# has_line STORED: the page has the one stored line as a line of its own
has_line() {
  : >"$room/shown"
  if [ ! -f "$1" ] || [ "$(wc -l <"$1")" -ne 1 ]; then
    tell "$1" 'is not one line'
  elif ! grep -qxF -f "$1" page.md; then
    cp "$1" "$room/shown"
    tell page.md "has no line as in $1"
  fi
}

# has_text STORED: the page has the stored text, whole and as it stands
has_text() {
  local text
  : >"$room/shown"
  text=$(cat "$1")
  case $page in
    *"$text"*) ;;
    *) tell page.md "doesn't show $1 as it stands" ;;
  esac
}

count=0
for folder in "$here"/[0-9][0-9]-*/; do
  [ -d "$folder" ] || continue
  lesson=$(basename "$folder")
  cd "$folder" || exit 2
  count=$((count + 1))
  : >"$room/shown"
  absent=0
  for file in page.md program.lem script script.out refused.cert refused.out certified.cert certified.out guard.out; do
    if [ ! -f "$file" ]; then
      tell "$file" 'is missing'
      absent=1
    fi
  done
  [ "$absent" -eq 0 ] || continue
  prints script.out 0 run program.lem script
  ends refused.out 1 certify program.lem refused.cert
  ends certified.out 0 certify program.lem certified.cert
  # a guarded script that meets what isn't declared ends with 1
  case $(tail -n 1 guard.out) in
    OUTSIDE*) prints guard.out 1 guard program.lem script certified.cert ;;
    *) prints guard.out 0 guard program.lem script certified.cert ;;
  esac
  page=$(cat page.md)
  has_line refused.out
  has_line certified.out
  has_text program.lem
  has_text script
  has_text script.out
done
if [ "$count" -eq 0 ]; then
  printf 'there is no lesson\n'
  differing=1
fi
exit "$differing"
