#!/usr/bin/env bash
# Tries completions/ags.bash: it is loaded, and its function is called with the words of a command line. It prints nothing where all is
# as it should be; else it ends with 1.
set -u
top=$(cd "$(dirname "$(readlink -f "${BASH_SOURCE[0]}")")/.." && pwd) || exit 2
source "$top/completions/ags.bash" || exit 2
room=$(mktemp -d) || exit 2
trap 'rm -rf "$room"' EXIT
cd "$room" || exit 2
mkdir folder
touch one.lem two.lem 'with blank.lem' one.lst one.script one.cert one.times one.scales one.edits one.toml note.txt folder/deep.lem
differing=0

# completes WORD.. = WANTED..: the last word before the sign is the one that is completed
completes() {
  COMP_WORDS=()
  while [ "$1" != = ]; do
    COMP_WORDS+=("$1")
    shift
  done
  shift
  COMP_CWORD=$((${#COMP_WORDS[@]} - 1))
  _ags
  local got wanted
  got=$(printf '%s\n' "${COMPREPLY[@]}")
  wanted=$(printf '%s\n' "$@")
  if [ "$got" != "$wanted" ]; then
    printf 'differs: %s\nwanted:\n%s\ngot:\n%s\n' "${COMP_WORDS[*]}" "$wanted" "$got"
    differing=1
  fi
}

completes ags '' = assemble compare tape xref certify run guard budget scales edits workload
completes bin/ags c = compare certify
completes ags x = xref
completes ags one = ''
completes ags assemble '' = one.lem two.lem 'with blank.lem' folder
completes ags assemble t = two.lem
completes ags assemble w = 'with blank.lem'
completes ags assemble f = folder
completes ags assemble folder/ = folder/deep.lem
completes ags assemble note = note.txt
completes ags assemble gone = ''
completes ags assemble one.lem '' = one.toml folder
completes ags assemble one.lem one.toml '' = ''
completes ags compare one.lem one = one.lst
completes ags compare one.lem one.lst o = one.toml
completes ags tape o = one.lem
completes ags xref one.lem o = one.toml
completes ags certify one.lem '' = one.cert folder
completes ags certify one.lem one.cert o = one.toml
completes ags run one.lem o = one.script
completes ags guard one.lem o = one.script
completes ags guard one.lem one.script o = one.cert
completes ags guard one.lem one.script one.cert o = one.toml
completes ags budget one.lem one.cert o = one.times
completes ags scales one.lem one.cert o = one.scales
completes ags edits one.lem one.cert o = one.edits
completes ags edits one.lem one.cert one.edits o = one.toml
completes ags edits one.lem one.cert one.edits one.toml '' = ''
completes ags workload '' = ''
completes ags none '' = ''

# As bash itself finds the function: by the name alone, whatever stands before its last slash.
[ "$(complete -p ags)" = 'complete -F _ags ags' ] || differing=1

# The commands are those of the README's table, in its order.
wanted=$(sed -n 's/^| `\([a-z]*\) [A-Z[].*` | .*/\1/p' "$top/README.md")
COMP_WORDS=(ags '') COMP_CWORD=1
_ags
if [ "$(printf '%s\n' "${COMPREPLY[@]}")" != "$wanted" ]; then
  printf 'the commands are not those of the README\n'
  differing=1
fi
exit "$differing"
