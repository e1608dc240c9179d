#!/usr/bin/env bash
# How many lines of a script are answered in a second. Run as:
#
#     bench/lines.sh [PROGRAM]
#
# The program is ./gltool by default. Each line of the answer has the number of lines, the seconds of processor time of
# the best of three runs, and the lines a second:
#
# - begin: `begin` of a name that is in use, refused by the names alone. Aim: 4 million a second.
# - locks: `begin`, `lock`, `try`, `commit` of one transaction after the other. Aim: 3 million a second.
# - bad: lines that are no commands. Aim: 20 million a second.
# - 60 of 60, 60 of 60000, 60000 of 60000: a million queries for so many of so many declared names, without the time for
#   declaring them. Aim: a line costs no more with many declared names than with few. All three need the same number of
#   instructions a line; the last takes longer because names and nodes no longer fit into the caches.
#
# On one core of an Intel Xeon at 2.5 GHz that other work shares, at best: 14.9, 4.8, 31, 9.8, 10.2 and 2.7 million.
# Minutes later the same program may do half of that, so compare two programs by turns.
set -eu
cd "$(dirname "$0")/.."
program=${1:-./gltool}
input=$(mktemp)
trap 'rm -f "$input"' EXIT
"$program" <examples/first.script >/dev/null

# seconds KIND NAMES ASKED: the best of three runs; the script is left in $input.
seconds() {
  awk -v kind="$1" -v names="$2" -v asked="$3" -f bench/script.awk >"$input"
  local TIMEFORMAT='%U %S'
  for _ in 1 2 3; do
    { time "$program" <"$input" >/dev/null; } 2>&1
  done | awk '{ t = $1 + $2 } NR == 1 || t < best { best = t } END { print best }'
}

# report NAME LINES SECONDS
report() {
  awk -v name="$1" -v lines="$2" -v s="$3" \
    'BEGIN { printf "%s: %d lines, %.2f s, %.2f million lines a second\n", name, lines, s, lines / s / 1e6 }'
}

for kind in begin locks bad; do
  took=$(seconds $kind 0 0)
  report $kind "$(wc -l <"$input")" "$took"
done
for names in 60 60000; do
  before=$(seconds none $names 0)
  for asked in 60 60000; do
    [ $asked -le $names ] || continue
    took=$(seconds names $names $asked)
    report "$asked of $names" 1000000 "$(awk -v a="$took" -v b="$before" 'BEGIN { print a - b }')"
  done
done
