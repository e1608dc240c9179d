#!/usr/bin/env bash
# allocations.sh scenarios|script|crews LIBRARY: runs a program with each of its allocations refused in turn, by the
# library that tools/refuse_allocation.c makes. Reports the allocation at which something is wrong, and ends with
# status 1 there.
#
# scenarios: the program `test_allocations` prints the same as with no allocation refused.
#
# script: `gltool --listings --schema --savepoints --trace` answers tools/every_form.script. Either it reports no memory, or bad
# words if its words were not read, before it has read anything; or one line is answered with `NoMemory`, and all others
# as in the script without that line. An allocation that reading the words does not need changes nothing.
#
# crews: `gltool` runs a small crew with each way of detection. It ends in time, and counts every command of its
# sessions (threads that could not be started among them), or reports in one line that it did not.
#
# Both programs must be built.
set -uo pipefail
top=$(cd "$(dirname "$0")/.." && pwd) || exit 2
[ $# -eq 2 ] || { sed -n '2,4s/^# //p' "$0" >&2; exit 2; }
library=$2
work=$(mktemp -d) || exit 2
trap 'rm -rf "$work"' EXIT

# with_allocation N PROGRAM WORD..: runs the program, for at most a minute, with its Nth allocation refused, none for 0.
with_allocation() {
  timeout 60 env LD_PRELOAD="$library" ALLOCATION_REFUSED="$1" ALLOCATION_COUNT="$work/count" "${@:2}"
}

# fail WHY: reports the allocation, with what is wrong about it.
fail() {
  echo "allocations: allocation $n of $allocations: $1"
  exit 1
}

# allocations_of WHAT: counts the allocations of the last run; there must be some.
allocations_of() {
  allocations=$(od -An -t u8 "$work/count" | tr -d ' ')
  [ "${allocations:-0}" -gt 0 ] || { echo "allocations: no allocation was counted in $1" >&2; exit 2; }
}

# same WANTED CAME: fails with the first lines that differ.
same() {
  cmp -s "$1" "$2" && return
  diff "$1" "$2" >"$work/differences"
  fail "wanted '$(sed -n 's/^< //p' "$work/differences" | head -n 1)', came '$(sed -n 's/^> //p' "$work/differences" | head -n 1)'"
}

refuse_in_scenarios() {
  local program=$top/crates/test_allocations/out/test_allocations status
  with_allocation 0 "$program" >"$work/wanted" || { cat "$work/wanted"; exit 1; }
  allocations_of "the scenarios"
  for ((n = 1; n <= allocations; n++)); do
    with_allocation "$n" "$program" >"$work/came" 2>&1
    status=$?
    same "$work/wanted" "$work/came"
    [ "$status" -eq 0 ] || fail "status $status"
  done
}

# without N: the script without the Nth of the lines that have an answer.
without() {
  awk -v n="$1" '/^#/ || /^$/ || ++line != n' "$script"
}

# refused_line REPORT: which answer is `NoMemory`; nothing if there is not exactly one. Lines of notices, and rows of
# listings, are below an answer.
refused_line() {
  awk '/^(told|holder|waiter|lock|blocker|txn|victim|stuck) / { next } { ++line } /^no 1 NoMemory$/ { found = line; ++count } END { if (count == 1) print found }' "$1"
}

# says FAULT: standard error has this fault. After bad words, if they could be had, the usage follows.
says() {
  echo "gltool: $1" >"$work/says"
  if [ "$1" = "bad words" ] && [ "$(wc -l <"$work/fault")" -gt 1 ]; then
    { "$program" --crew 1 2>&1 | sed -n 2p; "$program" --help; } >>"$work/says"
  fi
  cmp -s "$work/says" "$work/fault" || fail "on standard error: $(cat "$work/fault")"
}

# Nothing may have been read, or written except the fault.
ended_early() {
  says "$1"
  [ ! -s "$work/came" ] || fail "something was written before: $(head -n 1 "$work/came")"
  cmp -s "$script" "$work/left" || fail "something was read before"
}

# One line is answered with `NoMemory`, and the others as in the script without it.
one_line_refused() {
  local line
  line=$(refused_line "$work/came")
  [ -n "$line" ] || fail "not one line is answered with want of memory"
  without "$line" | "$program" --listings --schema --savepoints --trace >"$work/wanted" || fail "status $? without the line"
  grep -v '^no 1 NoMemory$' "$work/came" >"$work/others"
  same "$work/wanted" "$work/others"
}

refuse_in_script() {
  local program=$top/crates/gltool/out/gltool status
  script=$top/tools/every_form.script
  local reads_words=yes
  with_allocation 0 "$program" --listings --schema --savepoints --trace <"$script" >"$work/whole" || exit 1
  allocations_of "the script"
  for ((n = 1; n <= allocations; n++)); do
    status=$({ with_allocation "$n" "$program" --listings --schema --savepoints --trace >"$work/came" 2>"$work/fault"; echo $?; cat >"$work/left"; } <"$script")
    case $status in
      0) { [ "$reads_words" ] && cmp -s "$work/whole" "$work/came"; } || one_line_refused ;;
      1) reads_words= && ended_early "no memory" ;;
      2) ended_early "bad words" ;;
      *) fail "status $status" ;;
    esac
  done
}

# Every command of the crew was counted, and each settle of the watcher, if it made some.
counted() {
  local count
  count=$(sed -n 's/^accepted \([0-9]*\)$/\1/p' "$work/came")
  [ "$(wc -l <"$work/came")" -eq 1 ] && [ -n "$count" ] || fail "written: $(head -n 1 "$work/came")"
  [ "$count" -eq 84 ] || { [ "$1" = by-watcher ] && [ "$count" -gt 84 ]; } || fail "accepted $count, of 84"
  [ ! -s "$work/fault" ] || fail "on standard error: $(cat "$work/fault")"
}

# Nothing was written except why the crew did not do its rounds.
stopped() {
  says "$1"
  [ ! -s "$work/came" ] || fail "written all the same: $(head -n 1 "$work/came")"
}

# crew N DETECT: runs a crew of 4 sessions and 3 rounds.
crew() {
  with_allocation "$1" "$program" --crew 4 --rounds 3 --detect "$2" >"$work/came" 2>"$work/fault" </dev/null
}

refuse_in_crews() {
  local program=$top/crates/gltool/out/gltool status detect all=0
  for detect in at-block by-watcher; do
    crew 0 "$detect" || exit 1
    allocations_of "the crew"
    all=$((all + allocations))
    for ((n = 1; n <= allocations; n++)); do
      crew "$n" "$detect"
      status=$?
      case $status in
        0) counted "$detect" ;;
        1) # The words alone may lack memory, before there is a crew.
          case $(cat "$work/fault") in
            *"no memory") stopped "no memory" ;;
            *) stopped "crew stopped" ;;
          esac
          ;;
        2) stopped "bad words" ;;
        *) fail "status $status" ;;
      esac
    done
  done
  allocations=$all
}

case $1 in
  scenarios) refuse_in_scenarios ;;
  crews) refuse_in_crews ;;
  script) refuse_in_script ;;
  *) exit 2 ;;
esac
echo "allocations: $allocations allocations refused in turn"
