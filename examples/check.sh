#!/usr/bin/env bash
# Runs PROGRAM, or bin/ags of the repository where none is named, on the sources and certificates that docs/CERTIFICATE.md works
# through, and on what it makes of them, and compares the verdicts. The page must show each file as it stands, and each verdict; and
# docs/CHECKER.md the verdict of each kind of refusal.
# Prints nothing where all is well. Ends with 1 where something differs, and with 2 where nothing can run.
#   examples/check.sh [PROGRAM]
set -u
here=$(cd "$(dirname "$(readlink -f "${BASH_SOURCE[0]}")")" && pwd) || exit 2
program=${1:-$here/../bin/ags}
case $program in
  /*) ;;
  *) program=$PWD/$program ;;
esac
if [ ! -f "$program" ] || [ ! -x "$program" ]; then
  printf 'no such program: %s\n' "${1:-bin/ags}" >&2
  exit 2
fi
cd "$here" || exit 2
page=$(cat ../docs/CERTIFICATE.md) || exit 2
room=$(mktemp -d) || exit 2
trap 'rm -rf "$room"' EXIT
differing=0

tell() {
  printf 'differs: %s\n' "$1"
  differing=1
}

# shows NAME: the page has the source and the certificate, each whole and in a block of its own
shows() {
  local file text
  for file in "$1.lem" "$1.cert"; do
    text=$(cat "$file")
    [[ $page == *$'\n```\n'"$text"$'\n```\n'* ]] || tell "the page doesn't show $file as it stands"
  done
}

# ends NAME VERDICT: certify of NAME.lem, with the certificate that comes on standard input; the page has the verdict
ends() {
  local told status wanted=1
  cat >"$room/given.cert"
  told=$("$program" certify "$1.lem" "$room/given.cert" 2>"$room/said")
  status=$?
  told=${told##*$'\n'}
  [[ $2 == CERTIFIED* ]] && wanted=0
  [ "$told" = "$2" ] || tell "$1: certify says $told, and not $2"
  [ "$status" -eq "$wanted" ] || tell "$1: the status is $status, and $wanted is wanted"
  [[ $page == *"\`$2\`"* ]] || tell "the page doesn't have $2"
}

# without_at WHICH: return.cert without its first AT line, its last one, or both
without_at() {
  awk -v which="$1" '/^AT/ && (++count == 1 ? which != "last" : which != "first") { next } { print }' return.cert
}

# --- a loop with an index

shows turns
ends turns 'CERTIFIED ROWS 10 CASES 10' <turns.cert
ends turns 'REFUSED 10 NotCovered ROW 5 WORD 424002 X 2 V 0 NEXT 4002' < <(grep -v '^ROW 4002 .* X 1 ' turns.cert)

# --- a subroutine with two callers

shows twice
ends twice 'CERTIFIED ROWS 13 CASES 13' <twice.cert
# one row for both callers: that of the second, with both words
ends twice 'REFUSED 10 NotCovered ROW 9 WORD 404002 X 0 V 0 NEXT 4002' \
  < <(sed -e '/called at 4001/,/called at 4002/d' -e 's/WORDS 404003/WORDS 404002 404003/' twice.cert)

# --- a cell that is run

shows return
ends return 'CERTIFIED ROWS 5 CASES 5' <return.cert
ends return 'REFUSED 3 CodeUnknown ROW 5' < <(without_at last)
ends return 'REFUSED 10 NotCovered ROW 4 WORD 400017 X 0 V 0 NEXT 0017' < <(without_at first)
ends return 'REFUSED 4 NoOrder ROW 5 WORD 000000' \
  < <(without_at both | sed '/^START/a CELL 0017 WORDS 000000 404001')
ends return 'REFUSED 1 InitRange 0017 000000' < <(without_at both | sed '/^START/a CELL 0017 WORDS 404001')
ends return 'CERTIFIED ROWS 5 CASES 5' \
  < <(without_at both | sed '/^START/a CELL 0017 WORDS 404001\nINIT 0017 WORDS 404001')

# --- the refusals

page=$(cat ../docs/CHECKER.md) || exit 2
for name in 01-InitRange-empty 02-StartUncovered 03-CodeUnknown 04-NoOrder 05-BadPort 06-FixedWrite 07-MayOverflow 08-CellRange \
  09-OutputRange 10-NotCovered; do
  told=$("$program" certify "refusals/$name.lem" "refusals/$name.cert" 2>"$room/said")
  told=${told##*$'\n'}
  [[ $page == *"**\`$told\`**"* ]] || tell "docs/CHECKER.md doesn't have $told"
done

exit "$differing"
