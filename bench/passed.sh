#!/usr/bin/env bash
# passed.sh: how often others pass a waiting writer, among 127 readers that lock and release a node. Run from anywhere:
#
#     bench/passed.sh [TURNS]
#
# The readers lock a node to read, each in a thread of its own, and release it again, without end. The writer locks it
# to write TURNS times (200 by default), each time after the readers were granted it 127 times more. For ours and for
# Berkeley DB it prints how many grants to readers were counted from the writer's request to its grant: as a mean, in
# the 99th turn of a hundred, and at most. Those that held the node at the request may be among them, so up to 127 can
# be counted if nobody passes; and so may those that were granted it before the writer's call had begun, if its thread
# had lost the processor. CC names another compiler than cc.

# shellcheck source-path=SCRIPTDIR source=frame/frame.sh
. "$(dirname "$0")/frame/frame.sh" || exit 2
sources=(-std=c11 "$top"/bench/passed/{main,ours}.c) sides=(ours)
! has_db || { sources+=(-DHAVE_DB "$top/bench/passed/theirs.c" -ldb) && sides+=(theirs); }
compile passed "${sources[@]}" || exit 1
row "grants to others, of ${1:-200} waits" mean 99th most
for side in "${sides[@]}"; do
  IFS=$'\t' read -r mean late most < <(timeout 300 "$work/passed" "$side" "${1:-200}")
  [ -n "${most:-}" ] || { echo "passed.sh: $side did not end" >&2; exit 1; }
  row "$side" "$mean" "$late" "$most"
done
