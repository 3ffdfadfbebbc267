#!/usr/bin/env bash
# Runs the tour, docs/TOUR.md, and compares what each command prints, on standard output and, where the output has no line, on standard
# error. Other programs than bin/ags and bin/agsbench may be named, in this order, as builds without proofs. Ends with 1 where something differs.
set -u
cd "$(dirname "$(readlink -f "${BASH_SOURCE[0]}")")/.." || exit 2
ags=${1:-bin/ags}
bench=${2:-bin/agsbench}
room=$(mktemp -d) || exit 2
trap 'rm -rf "$room"' EXIT
differing=0

# compare NAME STATUS WANTED-STATUS: what came stands in the file `got`, and what is wanted comes on standard input
compare() {
  cat >"$room/wanted"
  if [ "$2" -ne "$3" ] || ! diff "$room/wanted" "$room/got" >"$room/diff"; then
    printf 'differs: %s (status %s, wanted %s)\n' "$1" "$2" "$3"
    cat "$room/diff"
    differing=1
  fi
}

# prints STATUS ARGUMENT..: the whole standard output
prints() {
  local wanted=$1 status
  shift
  "$ags" "$@" >"$room/got" 2>"$room/said"
  status=$?
  compare "ags $*" "$status" "$wanted"
}

# ends STATUS ARGUMENT..: the last line of the standard output
ends() {
  local wanted=$1 status
  shift
  "$ags" "$@" >"$room/all" 2>"$room/said"
  status=$?
  tail -n 1 "$room/all" >"$room/got"
  compare "ags $*" "$status" "$wanted"
}

# said: what standard error had, as `got`, but for the line of bin/ags-unproved that nothing is proved
said() {
  grep -v '^ags: compiled without proofs, ' "$room/said" >"$room/got"
}

# says STATUS ARGUMENT..: the standard error, where the output goes to the file OUT
says() {
  local wanted=$1 status
  shift
  "$ags" "$@" 2>"$room/said" >"${OUT:-$room/all}"
  status=$?
  said
  compare "ags $* (standard error)" "$status" "$wanted"
}

# --- assemble and run

prints 0 assemble examples/first.lem <<'END'
0000001             * TWO CONSTANTS, AND ONE MORE PAST THEM
0000002                     ORG /4000
0000003 4000 377777 GAIN    OCT 377777
0000004 4001 000001         OCT 000001
0000005                     ORG /4010
0000006 4010 000007         OCT 7
END

prints 0 assemble examples/scale.lem <<'END'
0000001             * THREE QUARTERS OF A READING, LESS A BIAS, AT SCALE 10
0000002                     ORG /20
0000003             RESULT  BSS 1
0000004             INPUT   EQU /2001
0000005                     ORG /4000
0000006 4000 642001 START   INP INPUT
0000007 4001 164005         MPR FACTOR
0000008 4002 224006         ADD BIAS
0000009 4003 100020         STO RESULT
0000010 4004 704000         DLY START
0000011 4005 300000 FACTOR  DEC 0.75B0
0000012 4006 774700 BIAS    DEC -12.5B10
0000013                     END
END

prints 0 run examples/scale.lem examples/scale.script <<'END'
CELL 0020 017500
A 017500 Q 000000 X 0 V 0 P 4000 W
END

prints 0 run examples/once.lem examples/once.script examples/other.toml <<'END'
A 000017 Q 000000 X 0 V 0 P 4001 R
A 000000 Q 000000 X 0 V 0 P 4002 R
END

# --- the panel

prints 0 run examples/deck.lem examples/entry.script <<'END'
DEDA |          |
DEDA |047       |
DEDA |047+01234 |
OUT 6200 000027
DEDA |047+01234E|
DEDA |          |
END

prints 0 run examples/deck.lem examples/deck.script <<'END'
CELL 0020 001750
A 777777 Q 404012 X 0 V 0 P 4000 W
DEDA |047?????? |
END

# --- certify, break, mend, guard

ends 0 certify examples/deck.lem examples/deck.cert <<'END'
CERTIFIED ROWS 31 CASES 32
END

sed 's/^IN 2001 .*/IN 2001 RANGE -1001 1000/' examples/deck.cert >"$room/wide.cert"
ends 1 certify examples/deck.lem "$room/wide.cert" <<'END'
REFUSED 10 NotCovered ROW 1 WORD 642001 X 0 V 0 NEXT 4001
END

ends 1 certify examples/counter.lem examples/counter.cert <<'END'
REFUSED 7 MayOverflow ROW 2 WORD 224004 A 377777 Q 000000 M 000001
END

ends 0 certify examples/counter.lem examples/counter_named.cert <<'END'
CERTIFIED ROWS 4 CASES 8
END

grep -v '^LINK 0020 10' examples/limiter.cert >"$room/unlinked.cert"
ends 1 certify examples/limiter.lem "$room/unlinked.cert" <<'END'
REFUSED 10 NotCovered ROW 3 WORD 464004 X 0 V 0 NEXT 4004
END

ends 0 certify examples/limiter.lem examples/limiter.cert <<'END'
CERTIFIED ROWS 8 CASES 8
END

sed 's/^LINK 0020 10/LINK 0020 9/' examples/limiter.cert >"$room/mislinked.cert"
ends 1 certify examples/limiter.lem "$room/mislinked.cert" <<'END'
REFUSED 10 NotCovered ROW 2 WORD 244010 X 0 V 0 NEXT 4002
END

sed 's/^AGSCERT 2/AGSCERT 1/' examples/limiter.cert >"$room/first.cert"
ends 8 certify examples/limiter.lem "$room/first.cert" <<'END'
CERTIFICATE LINE 5 ERROR 1 BadLine
END

prints 0 guard examples/deck.lem examples/deck.script examples/deck.cert <<'END'
CERTIFIED ROWS 31 CASES 32
CELL 0020 001750
A 777777 Q 404012 X 0 V 0 P 4000 W
DEDA |047?????? |
END

prints 1 guard examples/deck.lem examples/outside.script examples/deck.cert <<'END'
CERTIFIED ROWS 31 CASES 32
OUTSIDE IN 2001 001751
END

# --- bounds on order time

prints 0 budget examples/deck.lem examples/deck_split.cert examples/deck.times <<'END'
CERTIFIED ROWS 44 CASES 44
WITHIN 492
END

sed 's/^TIME 18 10/TIME 18 9/' examples/deck.times >"$room/late.times"
prints 1 budget examples/deck.lem examples/deck_split.cert "$room/late.times" <<'END'
CERTIFIED ROWS 44 CASES 44
OVER ROW 18 WORD 704000 X 0 V 0 NEXT ---- NEEDS 10 BOUND 9
END

prints 9 budget examples/deck.lem examples/deck.cert examples/deck.times <<'END'
TIMES LINE 33 ERROR 4 NoRow
END

# --- scale tags

prints 0 scales examples/scaled_sum.lem examples/scaled_sum.cert examples/scaled_sum.scales <<'END'
CERTIFIED ROWS 5 CASES 5
SCALES AGREE
END

sed 's/^CELL 4005 6/CELL 4005 7/' examples/scaled_sum.scales >"$room/mixed.scales"
prints 1 scales examples/scaled_sum.lem examples/scaled_sum.cert "$room/mixed.scales" <<'END'
CERTIFIED ROWS 5 CASES 5
MIXED ROW 3 WORD 224005 X 0 V 0 LEFT 6 RIGHT 7
END

prints 9 scales examples/limiter.lem examples/limiter.cert examples/deck.times <<'END'
SCALES LINE 1 ERROR 1 BadLine
END

# --- edits

prints 1 edits examples/return.lem examples/return.cert examples/return.edits <<'END'
CERTIFIED ROWS 5 CASES 5
EDIT 1 REFUSED 3 CodeUnknown ROW 5
EDIT 2 CERTIFIED ROWS 5 CASES 5
EDIT 3 NOTMADE 3 BelowUse
EDIT 4 NOTMADE 1 NoRow
END

sed '/^CELL/,/^ROW 6/d' examples/return.edits >"$room/two.edits"
prints 0 edits examples/return.lem examples/return.cert "$room/two.edits" <<'END'
CERTIFIED ROWS 5 CASES 5
EDIT 1 REFUSED 3 CodeUnknown ROW 5
EDIT 2 CERTIFIED ROWS 5 CASES 5
END

prints 9 edits examples/return.lem examples/return.cert examples/deck.times <<'END'
EDITS LINE 1 ERROR 1 BadLine
END

# --- listings, tapes and symbols

"$ags" assemble examples/first.lem >"$room/first.lst"
prints 0 compare examples/first.lem "$room/first.lst" <<'END'
EQUAL
END

sed 's/ 377777 / 377776 /' "$room/first.lst" >"$room/mistyped.lst"
prints 1 compare examples/first.lem "$room/mistyped.lst" <<'END'
DIFFERS 4000 377777 377776
END

prints 0 tape examples/first.lem <<'END'
4000 377777
4001 000001
4010 000007
END

prints 0 xref examples/scale.lem <<'END'
BIAS      2054 0000012 0000008
FACTOR    2053 0000011 0000007
INPUT     1025 0000004 0000006
RESULT      16 0000003 0000009
START     2048 0000006 0000010
END

# --- the workload

prints 0 workload 400 <<'END'
WORKLOAD 400 CARDS 811 WORDS 807 ROWS 3201 CASES 3201 CERTIFIED
END

prints 3 workload 401 <<'END'
WORDS
END

# --- the bench

# drives STATUS ARGUMENT..: the whole standard output of the bench
drives() {
  local wanted=$1 status
  shift
  "$bench" "$@" >"$room/got" 2>"$room/said"
  status=$?
  compare "agsbench $*" "$status" "$wanted"
}

drives 0 examples/deck.lem examples/deck.cert examples/deck.bench <<'END'
CERTIFIED ROWS 31 CASES 32
DETACHED 3 LEFT 0 HEARD 100 LAST 001750
A 777777 Q 404012 X 0 V 0 P 4000 W
DEVICE 1 LEFT 0 HEARD 0 LAST ------
DEVICE 2 LEFT 0 HEARD 9 LAST 000037
END

drives 3 examples/deck.lem <<'END'
WORDS
END

# --- what standard error says

says 1 certify examples/counter.lem examples/counter.cert <<'END'
ags: examples/counter.cert: MayOverflow ROW 2 WORD 224004 A 377777 Q 000000 M 000001: with these words the order overflows: narrow A in the row, or the cell by AT or CELL, or name the place by MAY (docs/CHECKER.md, The verdict)
END

says 1 guard examples/deck.lem examples/outside.script examples/deck.cert <<'END'
ags: examples/outside.script: OUTSIDE IN 2001 001751: it is the script's first word, put by SET, FEED or CYCLE, that isn't one of its register's IN line: put another, or widen that; bin/ags-explain -g tells its line
END

says 2 assemble examples/deck.cert <<'END'
ags: examples/deck.cert:1: BadSymbol: this is read as a source: a symbol, from column 1 on, is 1 to 6 capitals and digits with a letter among them; EQU and SYN have one; a comment has * in column 1
END

says 3 assemble <<'END'
ags: the forms of arguments are: assemble S [M], compare S L [M], tape S [M], xref S [M], certify S C [M], run S P [M], guard S P C [M], budget S C T [M], scales S C K [M], edits S C E [M], workload N; S is a source, L a listing, C a certificate, P a script, T a text of times, K one of scales, E one of edits, M a machine file, and N a size from 1 to 400
END

says 4 assemble examples/none.lem <<'END'
ags: examples/none.lem: there is no file of this name
END

says 5 assemble examples <<'END'
ags: examples: it is a folder, and no file
END

OUT=/dev/full says 6 assemble examples/first.lem <<'END'
ags: the output can't be written: its device is full
END

says 8 certify examples/deck.lem examples/deck.lem <<'END'
ags: examples/deck.lem:1: BadLine: this is read as a certificate, whose line 1 is AGSCERT 1 or AGSCERT 2
END

# Whoever reads the output has closed it before anything is written: the status is 6, and nothing is said.
{
  sleep 1
  "$ags" assemble examples/first.lem 2>"$room/said"
  echo $? >"$room/status"
} | true
said
compare 'ags into a closed pipe (standard error)' "$(cat "$room/status")" 6 </dev/null

if [ "$differing" -ne 0 ]; then
  exit 1
fi
printf 'the tour is as docs/TOUR.md says\n'
