#!/usr/bin/env bash
# Runs a source and a certificate for each of the ten refusals (docs/CHECKER.md, When a certificate is accepted), and compares the
# verdict, and with it the lines that bin/ags-explain must have. Another program than bin/ags may be named. It prints nothing where all
# is as it should be; else it ends with 1.
set -u
program=$(realpath -s "${1:-$(dirname "${BASH_SOURCE[0]}")/../../bin/ags}") || exit 2
cd "$(dirname "$(readlink -f "${BASH_SOURCE[0]}")")" || exit 2
room=$(mktemp -d) || exit 2
trap 'rm -rf "$room"' EXIT
differing=0
tried=' '

tell() {
  printf 'differs: %s\n' "$1"
  differing=1
}

# refuses NAME VERDICT LINE..: the verdict on NAME.lem and NAME.cert, whose number and kind are in their names, and lines of what
# bin/ags-explain says of it, in this order
refuses() {
  local name=$1 verdict=$2 told line number kind status
  shift 2
  tried+="$name "
  number=${name%%-*} kind=${name#*-}
  told=$("$program" certify "$name.lem" "$name.cert" 2>"$room/said" | tail -n 1)
  [[ $told == "REFUSED $((10#$number)) ${kind%%-*}"* ]] || tell "$name: certify says $told, which is another kind"
  [ "$told" = "$verdict" ] || tell "$name: certify says $told, and not $verdict"

  AGS=$program ../../bin/ags-explain "$name.lem" "$name.cert" >"$room/explained" 2>"$room/said"
  status=$?
  [ "$status" -eq 1 ] || tell "$name: ags-explain ends with $status"
  [ -s "$room/said" ] && tell "$name: ags-explain says $(cat "$room/said")"
  grep -q '(docs/CHECKER.md, The verdict' "$room/explained" || tell "$name: ags-explain names no page"
  exec 3<"$room/explained"
  for line in "$verdict" "$@"; do
    while IFS= read -r told <&3 && [ "$told" != "$line" ]; do :; done
    [ "$told" = "$line" ] || tell "$name: ags-explain has no line '$line', or has it out of order"
  done
  exec 3<&-
}

refuses 01-InitRange 'REFUSED 1 InitRange 0017 000004' \
  'CELL line of 0017:' '  01-InitRange.cert:3: CELL 0017 RANGE 5 9' \
  'INIT line of 0017:' '  01-InitRange.cert:4: INIT 0017 RANGE 5 6' \
  'card at 0017:' '  0000003 0017 000004 COUNT   OCT 4'

refuses 01-InitRange-empty 'REFUSED 1 InitRange 0017 000000' \
  'CELL line of 0017:' '  01-InitRange-empty.cert:2: CELL 0017 RANGE 5 9' \
  'INIT line of 0017:' '  none: a cell without a word begins as 000000' \
  'card at 0017:' '  none: no card has a word there'

refuses 02-StartUncovered 'REFUSED 2 StartUncovered' \
  'rows at the start, 4001:' \
  '  02-StartUncovered.cert:6: ROW 4001 A RANGE 1 5 Q ANY X 0 V 0' \
  '  02-StartUncovered.cert:7: ROW 4001 A ANY Q ANY X 0 V 1' \
  '  02-StartUncovered.cert:8: AT 0017 WORDS 000000' \
  'card at 4001:' '  0000004 4001 404000 START   TRA AGAIN'

refuses 03-CodeUnknown 'REFUSED 3 CodeUnknown ROW 5' \
  'row 5:' '  03-CodeUnknown.cert:8: ROW 0017 A ANY Q ANY X 0 V 0' \
  'card at 0017:' '  none: no card has a word there, so what stands there is what the row says by an AT line, or else the CELL line' \
  'CELL line of 0017:' '  none: the cell may hold every word'

refuses 04-NoOrder 'REFUSED 4 NoOrder ROW 3 WORD 000000' \
  'row 3:' '  04-NoOrder.cert:4: ROW 4002 A WORDS 000001 Q ANY X 0 V 0' \
  'card at 4002:' '  0000004 4001 620000 TABLE   OCT 620000,0,1' '  0000004 4002 000000 '

refuses 05-BadPort 'REFUSED 5 BadPort ROW 1 WORD 642003' \
  'row 1:' '  05-BadPort.cert:2: ROW 4000 A ANY Q ANY X 0 V 0' \
  'card at 4000:' '  0000003 4000 642003 LOOP    INP /2003'

refuses 06-FixedWrite 'REFUSED 6 FixedWrite ROW 2 WORD 104003 AT 4003' \
  'row 2:' '  06-FixedWrite.cert:3: ROW 4001 A ANY Q ANY X 0 V 0' \
  'card at 4001:' '  0000004 4001 104003         STO LIMIT' \
  'card at 4003, which is stored to:' '  0000006 4003 000012 LIMIT   OCT 12'

refuses 07-MayOverflow 'REFUSED 7 MayOverflow ROW 2 WORD 224004 A 377777 Q 000000 M 000001' \
  'row 2:' '  07-MayOverflow.cert:3: ROW 4001 A ANY Q ANY X 0 V 0' \
  'card at 4001:' '  0000006 4001 224004         ADD ONE'

refuses 08-CellRange 'REFUSED 8 CellRange ROW 2 WORD 100020 AT 0020 VALUE RANGE -126 125' \
  'row 2:' '  08-CellRange.cert:6: ROW 4001 A RANGE -126 125 Q ANY X 0 V 0' \
  'card at 4001:' '  0000006 4001 100020         STO KEPT' \
  'CELL line of 0020:' '  08-CellRange.cert:3: CELL 0020 RANGE -125 125'

refuses 09-OutputRange 'REFUSED 9 OutputRange ROW 2 WORD 666001 AT 6001 VALUE ANY' \
  'row 2:' '  09-OutputRange.cert:4: ROW 4001 A ANY Q ANY X 0 V 0' \
  'card at 4001:' '  0000004 4001 666001         OUT /6001' \
  'OUT line of 6001:' '  09-OutputRange.cert:2: OUT 6001 RANGE 0 100'

refuses 10-NotCovered 'REFUSED 10 NotCovered ROW 3 WORD 464004 X 0 V 0 NEXT 4004' \
  'row 3:' '  10-NotCovered.cert:7: ROW 4002 A RANGE -10 0 Q ANY X 0 V 0' \
  'card at 4002:' '  0000007 4002 464004         TMI UP' \
  'rows at 4004:' '  10-NotCovered.cert:9: ROW 4004 A ANY Q ANY X 0 V 0' \
  '  10-NotCovered.cert:10: AT 0020 RANGE 0 9' \
  '  A: from -10 to -1' '  Q: any word' '  X: 0' '  V: 0' \
  '  cell 0020: from 0 to 10 (row 3 has no AT or LINK line of it)' 'row 5 is too narrow for that in: AT 0020'

refuses 10-NotCovered-norow 'REFUSED 10 NotCovered ROW 2 WORD 244010 X 0 V 0 NEXT 4002' \
  'row 2:' '  10-NotCovered-norow.cert:4: ROW 4001 A RANGE 0 10 Q ANY X 0 V 0' \
  '  10-NotCovered-norow.cert:5: LINK 0020 0' \
  'card at 4001:' '  0000006 4001 244010         SUB MAX' \
  'rows at 4002:' '  none: no row stands there' 'a row of just that:' '  ROW 4002 A RANGE -10 0 Q ANY X 0 V 0'

# says WANTED WORD..: what bin/ags-explain prints where it is asked for a row, or for the line of a word that isn't declared
says() {
  local wanted=$1 told
  shift
  told=$(AGS=$program ../../bin/ags-explain "$@" 2>&1)
  [ "$told" = "$wanted" ] || tell "ags-explain $*: it says $told"
}

says '  08-CellRange.cert:6: ROW 4001 A RANGE -126 125 Q ANY X 0 V 0' -r 2 08-CellRange.cert
says 'OUTSIDE IN 2001 001751
  ../outside.script:2: SET 2001 001751' -g ../deck.lem ../outside.script ../deck.cert

for certificate in *.cert; do
  [[ $tried == *" ${certificate%.cert} "* ]] || tell "$certificate isn't tried"
done
exit "$differing"
