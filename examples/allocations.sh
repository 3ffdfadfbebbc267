#!/usr/bin/env bash
# Runs eight commands of ags once for each of their allocations, with that allocation refused: the status is 11, and the output is a
# prefix of what the command prints; or, where only standard error wanted the memory, the whole answer is there. It takes the path of a
# built program and wants a C compiler; it is no part of the gate.
set -u
program=$(realpath "${1:?the path of a built program}") || exit 2
here=$(cd "$(dirname "$(readlink -f "${BASH_SOURCE[0]}")")" && pwd) || exit 2
work=$(mktemp -d) || exit 2
trap 'rm -rf "$work"' EXIT

# Counts the calls that ask for memory, from the program's first on, and refuses the one of the number in REFUSED. What was counted is
# written into the file COUNTED when the program ends.
cat >"$work/refuse.c" <<'C'
#define _GNU_SOURCE
#include <dlfcn.h>
#include <stdio.h>
#include <stdlib.h>
#include <fcntl.h>
#include <unistd.h>

static void *(*real_malloc)(size_t);
static void *(*real_realloc)(void *, size_t);
static int (*real_memalign)(void **, size_t, size_t);
static unsigned long counted, refused;
static int begun;

__attribute__((constructor)) static void begin(void) {
  real_malloc = dlsym(RTLD_NEXT, "malloc");
  real_realloc = dlsym(RTLD_NEXT, "realloc");
  real_memalign = dlsym(RTLD_NEXT, "posix_memalign");
  refused = strtoul(getenv("REFUSED"), 0, 10);
  begun = 1;
}
static int is_refused(void) { return begun && ++counted == refused; }
void *malloc(size_t size) {
  if (!real_malloc) real_malloc = dlsym(RTLD_NEXT, "malloc");
  return is_refused() ? 0 : real_malloc(size);
}
void *realloc(void *old, size_t size) {
  if (!real_realloc) real_realloc = dlsym(RTLD_NEXT, "realloc");
  return is_refused() ? 0 : real_realloc(old, size);
}
int posix_memalign(void **into, size_t alignment, size_t size) {
  return is_refused() ? 12 : real_memalign(into, alignment, size);
}
void *aligned_alloc(size_t alignment, size_t size) {
  void *into = 0;
  return is_refused() || real_memalign(&into, alignment, size) ? 0 : into;
}
__attribute__((destructor)) static void end(void) {
  char text[32];
  int length = snprintf(text, sizeof text, "%lu\n", counted);
  int file = open(getenv("COUNTED"), O_WRONLY | O_CREAT | O_TRUNC, 0600);
  if (file >= 0 && write(file, text, length) == length) close(file);
}
C
cc -O1 -shared -fPIC -o "$work/refuse.so" "$work/refuse.c" -ldl || exit 2

run() { # the number of the allocation that is refused, then the command
  local number=$1
  shift
  REFUSED=$number COUNTED=$work/counted LD_PRELOAD=$work/refuse.so "$program" "$@" >"$work/out" 2>"$work/err"
}

failed=0
try() { # a command
  "$program" "$@" >"$work/whole" 2>/dev/null
  local status=$?
  run 0 "$@"
  local all
  all=$(cat "$work/counted")
  local number told=0 other=0 size
  for ((number = 1; number <= all; number++)); do
    run "$number" "$@"
    local ended=$?
    size=$(stat -c %s "$work/out")
    if ! cmp -s -n "$size" "$work/out" "$work/whole"; then
      echo "$*: allocation $number: the output is no prefix"
      failed=1
    elif [ "$ended" -eq 11 ]; then
      told=$((told + 1))
    elif [ "$ended" -eq "$status" ] && cmp -s "$work/out" "$work/whole"; then
      other=$((other + 1))
    else
      echo "$*: allocation $number: status $ended"
      failed=1
    fi
  done
  echo "$*: $all allocations, $told refusals told by status 11, $other without which the whole was printed"
}

cd "$here" || exit 2
"$program" assemble first.lem >"$work/first.lst"
try assemble first.lem
try compare first.lem "$work/first.lst"
try tape first.lem
try xref scale.lem
try certify deck.lem deck.cert
try run deck.lem deck.script
try guard deck.lem deck.script deck.cert
try workload 1
try assemble once.lem other.toml
exit "$failed"
