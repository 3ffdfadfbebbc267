#!/usr/bin/env bash
# Checks the editors' files: that the JSON is JSON, that both grammars of sources have the operations of docs/MACHINE.md's table of
# codes and of docs/SOURCE.md's table of cards and no others, that the TextMate grammar reads every card of examples/ and lessons/,
# and, where there is a vim with syntax, that it knows the files and their parts. It wants python3. It prints nothing where all is as
# it should be; else it ends with 1.
set -u
cd "$(dirname "$(readlink -f "${BASH_SOURCE[0]}")")/.." || exit 2
room=$(mktemp -d) || exit 2
trap 'rm -rf "$room"' EXIT
differing=0

python3 - <<'END' || differing=1
import glob, json, re, sys

faults = []
machine = open("docs/MACHINE.md", encoding="utf-8").read()
source = open("docs/SOURCE.md", encoding="utf-8").read()

# The table of codes has cells of a name and two octal digits, and the table of cards a first cell with names in backquotes.
codes = machine.split("\n## Order words\n")[1].split("\n## ")[0]
orders = re.findall(r"(?<=\| )([A-Z]{3}) [0-7]{2}(?= \|)", codes)
cards = source.split("\n## Cards\n")[1].split("\n## ")[0]
firsts = [line.split("|")[1] for line in cards.splitlines() if line.startswith("| ")]
places = re.findall(r"`([A-Z]{3})`", "".join(it for it in firsts if "orders" not in it))
if len(orders) != 27 or len(places) != 8:
    faults.append(f"the documents have {len(orders)} orders and {len(places)} other operations, and not 27 and 8")
wanted = set(orders + places)

grammar = json.load(open("editors/textmate/lemap.tmLanguage.json", encoding="utf-8"))
matcher = json.load(open("editors/textmate/problem-matcher.json", encoding="utf-8"))
rules = [re.compile(it["match"]) for it in grammar["patterns"]]
in_textmate = re.findall(r"\b[A-Z]{3}\b", "".join(re.sub(r"\[.*?\]", "", it["match"]) for it in grammar["patterns"]))
vim = open("editors/vim/syntax/lemap.vim", encoding="utf-8").read()
keywords = [re.sub(r".*(contained|skipwhite|nextgroup=\S+)", "", it) for it in re.findall(r"^syntax keyword.*", vim, re.M)]
in_vim = re.findall(r"\b[A-Z]{3}\b", "".join(keywords))
for name, has in (("the TextMate grammar", in_textmate), ("the vim syntax", in_vim)):
    for it in sorted(wanted ^ set(has)):
        faults.append(f"{name} {'lacks' if it in wanted else 'has'} {it}")
    if len(has) != len(set(has)):
        faults.append(f"{name} has an operation twice")
for it in re.findall(r'"include": "#(\w+)"', json.dumps(grammar)):
    if it not in grammar["repository"]:
        faults.append(f"the TextMate grammar has no {it}")

# Each card is read by one rule, a comment by the first.
cards = 0
for name in sorted(it for top in ("examples", "lessons") for it in glob.glob(f"{top}/**/*.lem", recursive=True)):
    for number, line in enumerate(open(name, encoding="ascii").read().splitlines(), 1):
        if not line.strip():
            continue
        cards += 1
        reading = [it for it in rules if it.search(line)]
        if len(reading) != 1 or (reading[0] is rules[0]) != line.startswith("*"):
            faults.append(f"{name}:{number}: {len(reading)} rules read {line!r}")
if not cards:
    faults.append("there are no cards to read")
for line in ("CLA", " HLT 5", " CLA", "1234 CLA 5", "TOOLONG CLA 5", " cla 5", " CLAX 5", " ABSX"):
    if any(it.search(line) for it in rules):
        faults.append(f"a rule reads {line!r}, which is no card")

pattern = matcher["problemMatcher"]["pattern"]
found = re.search(pattern["regexp"], "ags: some folder/deck.lem:12: UnknownOperation: the operation is none of the 35")
parts = found and [found[pattern[it]] for it in ("file", "line", "code", "message")]
if parts != ["some folder/deck.lem", "12", "UnknownOperation", "the operation is none of the 35"]:
    faults.append(f"the problem matcher reads {parts}")
if re.search(pattern["regexp"], "ags: examples can't be read"):
    faults.append("the problem matcher reads a line without a place")

print("\n".join(faults), end="\n" if faults else "")
sys.exit(bool(faults))
END

# --- vim: FILE, TYPE, and then LINE:COLUMN=GROUP of some places in it
vim --version 2>/dev/null | grep -q '+syntax' && vim --version | grep -q '+eval' || exit "$differing"

knows() {
  local file=$1 type=$2 place wanted got
  shift 2
  {
    printf "set nomore runtimepath^=%s/editors/vim\nfiletype on\nsyntax on\nedit %s\n" "$PWD" "$file"
    printf "let told = [&filetype, get(b:, 'current_syntax', ''), v:errmsg]\n"
    for place in "$@"; do
      printf "call add(told, synIDattr(synID(%s, %s, 1), 'name'))\n" "${place%%:*}" "$(sed 's/.*:\(.*\)=.*/\1/' <<<"$place")"
    done
    printf "call writefile(told, '%s/told')\nqall!\n" "$room"
  } >"$room/try.vim"
  rm -f "$room/told"
  vim -N -u NONE -i NONE -n -es -S "$room/try.vim" </dev/null >"$room/said" 2>&1
  got=$(cat "$room/told" 2>/dev/null)
  wanted=$(printf '%s\n' "$type" "$type" '' "${@#*=}")
  if [ "$got" != "$wanted" ] || [ -s "$room/said" ]; then
    printf 'vim differs: %s\n' "$file"
    cat "$room/said"
    diff <(printf '%s\n' "$wanted") <(printf '%s\n' "$got")
    differing=1
  fi
}

cat >"$room/try.lem" <<'END'
* A COMMENT
SUM1   CLA /20,1 LOADED
 ADD 1A-12+*
 COM THAT IS ALL
T DEC -1.5E1B3,.5 TWO
 OCT 17,-1
 HLT 5
END1 END
END
knows "$room/try.lem" lemap 1:1=lemapComment 2:1=lemapSymbol 2:8=lemapOrder 2:12=lemapOctal 2:15=lemapIndex 2:18=lemapRemark \
  3:2=lemapOrder 3:6=lemapName 3:8=lemapExpression 3:9=lemapDecimal 3:12=lemapHere 4:2=lemapOrderAlone 4:6=lemapRemark \
  5:1=lemapSymbol 5:3=lemapDecimals 5:7=lemapDecimalNumber 5:15=lemapDecimalList 5:16=lemapDecimalNumber 5:20=lemapRemark \
  6:2=lemapOctals 6:6=lemapOctalNumber 6:9=lemapOctalNumber 7:2= 8:1=lemapSymbol 8:6=lemapEnd
knows examples/deck.lem lemap 1:1=lemapComment 2:2=lemapPlace 7:1=lemapSymbol 7:7=lemapOrder
knows examples/limiter.cert agscert 1:1=agscertHead 2:1=agscertKind 2:6=agscertNumber 2:11=agscertValue 2:17=agscertNumber \
  3:1=agscertRow 3:10=agscertField 3:12=agscertValue 5:1=agscertKind 14:1=agscertEnd
knows examples/counter.cert agscert 2:1=agscertComment
exit "$differing"
