#!/usr/bin/env bash
# victims.sh: what the choice of victims does, and what it costs. Run from anywhere:
#
#     bench/victims.sh [STEPS]
#
# First a mix: lockers request one of 48 nodes, in a mode, both at random, three times of four, and otherwise commit; a
# victim aborts and begins again, as new work or with the number of its first begin, so that it keeps its turn. STEPS
# such calls are made (12000 by default), once by each choice and way to begin again, with the same random numbers. A
# line says how many lockers there are, which choice it is, whether turns are kept, how many blocks closed a cycle, how
# many victims were chosen, how many at most for one block, how many aborts there were for a commit, how many commits,
# and how often one work was chosen at most before it was committed.
#
# Then the cost of the block that closes a cycle when 127 wait, in nanoseconds, the best of nine turns, and in
# instructions if valgrind's callgrind is installed: of a ring, in which each waits for the next; and of a queue, in
# which each waits for all ahead of it and for the requester. CC names another compiler than cc.

# shellcheck source-path=SCRIPTDIR source=frame/frame.sh
. "$(dirname "$0")/frame/frame.sh" || exit 2
compile victims "$top/bench/victims/victims.c" || exit 1

"$work/victims" mix "${1:-12000}" || exit 1
"$work/victims" times || exit 1
has_callgrind || { echo "callgrind is not at hand: times alone"; exit 0; }
for shape in ring queue; do
  for choice in youngest fewest; do
    count=$(instructions --toggle-collect='measured*' "$work/victims" once "$shape" "$choice") || exit 1
    echo "$shape $choice: $count instructions"
  done
done
