# shellcheck shell=bash
# What bin/ags and bin/agsbench share: where a program is missing or older than its sources, it is proved and built, and standard
# error says how far that is.
#
# All that the program stands on is proved by one `rt all check --jobs N` in the program's folder: no other crates, no tests, and no
# wrong bodies. Crates that don't stand on one another are proved side by side there. Several `rt lib` could not do that, since each
# locks the folders of all crates below its own until it ends, and nearly all crates here stand on ags_text.

# build_where_stale NAME PROGRAM WORD..: what is said begins with NAME, PROGRAM is TOP/crates/CRATE/out/CRATE, and with the WORDs as
# arguments it ends with 0.
build_where_stale() {
  name=$1
  program=$2
  crate=${program##*/}
  top=${program%/crates/*}
  shift 2
  if is_stale; then
    build "$@"
  fi
}

is_stale() {
  [ -x "$program" ] || return 0
  [ -n "$(find "$top/crates.txt" "$top"/crates/*/src "$top"/crates/*/specs "$top"/crates/*/proofs \
    -newer "$program" -print -quit 2>/dev/null)" ]
}

build() {
  local status
  running=
  room=$(mktemp -d) || return
  trap 'give_up HUP' HUP
  trap 'give_up INT' INT
  trap 'give_up TERM' TERM
  mkfifo "$room/said" && : >"$room/begun" && announce && prove && link "$@"
  status=$?
  [ "$status" -eq 0 ] || say 'the program was not built'
  rm -rf "$room"
  trap - HUP INT TERM
  return "$status"
}

# `rt` was started in the background, where Ctrl-C doesn't reach it. Once it is ended, all that it has started ends too.
give_up() {
  [ -z "$running" ] || kill "$running" 2>/dev/null
  rm -rf "$room"
  trap - "$1"
  kill -s "$1" $$
}

say() {
  printf '%s: %s\n' "$name" "$1" >&2
}

# counted NUMBER NOUN
counted() {
  if [ "$1" -eq 1 ]; then
    printf '1 %s' "$2"
  else
    printf '%d %ss' "$1" "$2"
  fi
}

# A check takes 1 to 4 GB, so each is given 3. `rt` counts a crate that waits for those below it among the N that it works on, so N is
# half as much again as there are processors, to keep these busy.
announce() {
  local minutes processors
  processors=$(nproc) || return
  at_once=$(LC_ALL=C free -k | awk '/^Mem:/ { print int($7 / 3000000) }') || return
  if [ "$at_once" -gt $((processors * 3 / 2)) ]; then at_once=$((processors * 3 / 2)); fi
  if [ "$at_once" -lt 1 ]; then at_once=1; fi
  if [ "$at_once" -lt "$processors" ]; then processors=$at_once; fi
  read -r crates minutes < <(estimate "$processors") || return
  say "the program is proved and built first, which may take about $(counted "$minutes" minute) on $(counted "$processors" processor), and twice that where the machine is slow or busy"
  if [ -x "$top/bin/$name-unproved" ]; then
    say "to look at it at once, before any proof, call bin/$name-unproved with the same arguments"
  fi
}

# estimate PROCESSORS: how many crates the program stands on, with its own, and in how many minutes they may be proved, by the lines
# of those that weren't proved before. However many the processors, it takes as long as the longest chain of crates, each on the next.
estimate() {
  (
    cd "$top/crates" || exit
    find ./*/src ./*/specs ./*/proofs -type f -exec wc -l {} + 2>/dev/null
    find ./*/out/rlib/stamp 2>/dev/null
  ) | awk -v program="$crate" -v processors="$1" '
    function chain(name,   used, count, i, longest, seconds) {
      if (name in ended)
        return ended[name]
      count = split(uses[name], used, " ")
      for (i = 1; i <= count; i++)
        if (used[i] in uses && chain(used[i]) > longest)
          longest = ended[used[i]]
      seconds = 8 + (name in kept ? 0 : 0.026 * lines[name])
      crates++
      total += seconds
      ended[name] = longest + seconds
      return ended[name]
    }
    FNR == NR && NF == 2 { split($2, part, "/"); lines[part[2]] += $1 }
    FNR == NR && NF == 1 { split($1, part, "/"); kept[part[2]] = 1 }
    FNR == NR { next }
    { sub(/#.*/, "") }
    /:/ { name = $1; sub(/:.*/, "", name); sub(/[^:]*:/, ""); uses[name] = $0 }
    END {
      seconds = chain(program)
      if (seconds < total / processors)
        seconds = total / processors
      print crates, int(1.1 * seconds / 60) + 1
    }
  ' - "$top/crates.txt"
}

# follow WORD..: runs `rt WORD..` in the folder of the crate, keeps what it prints in `log`, and shows how far it is.
follow() {
  local status
  (cd "$top/crates/$crate" && exec rt "$@") >"$room/said" 2>&1 </dev/null &
  running=$!
  show_progress <"$room/said" 3>"$room/log"
  wait "$running"
  status=$?
  running=
  return "$status"
}

# What `rt` prints, shortened to a line for each crate. `rt all` prints the name of a crate and all that it has to say of it once it
# is done with it: nothing where the crate was proved before, or where one below it failed.
show_progress() {
  local line at='' so_far=0
  while IFS= read -r line; do
    printf '%s\n' "$line" >&3
    case $line in
      '== '*)
        at=${line#== }
        so_far=$((so_far + 1))
        ;;
      'logic=proved'*) [ -z "$at" ] || say "$so_far of $crates crates done: $at is proved" ;;
      'logic=not-proved'*) [ -z "$at" ] || say "$so_far of $crates crates done: $at is not proved" ;;
      "rt: chose "*" for $crate") ;;
      'rt: chose '*' for '*) say "proving ${line##* for }" ;;
      'rt: '*'waiting for '*) say "${line#rt: }" ;;
    esac
  done
}

# Where a check was killed, most likely for memory, `link` proves what is left, one crate after another.
prove() {
  local failed
  follow all check --jobs "$at_once" && say 'compiling the program' && return
  failed=$(sed -n '/^== summary$/,$ s/: failed (.*//p' "$room/log" | head -n 1)
  if [ -z "$failed" ]; then
    tail -n 20 "$room/log" >&2
    return 1
  fi
  if sed -n '/^== summary$/,$ p' "$room/log" | grep -q ': failed (-9)$'; then
    say "a check was killed, most likely for memory, so what is left is proved one crate after another: $failed and those above it"
    return
  fi
  say "$failed failed, whose last lines are:"
  sed -n "/^== $failed\$/,/^== / p" "$room/log" | sed '$ d' | tail -n 20 >&2
  return 1
}

# A source that is changed meanwhile is newer than the program is said to be here, so the next call builds it again.
link() {
  if follow run -- "$@"; then
    touch -r "$room/begun" "$program"
  else
    tail -n 20 "$room/log" >&2
    return 1
  fi
}
