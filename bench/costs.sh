#!/usr/bin/env bash
# costs.sh: what single pieces of work cost through the library for C. Run from anywhere:
#
#     bench/costs.sh locks|sessions|waits [ROUNDS]
#
# It prints a line for each piece of the group: its instructions, if valgrind's callgrind is installed, and its time in
# nanoseconds, the best of nine turns of ROUNDS rounds (100000 by default for locks, else 10000; fewer of long work).
# Instructions are the difference between two runs that differ only in their rounds, divided by the difference of these.
# Without callgrind a line says so, and only the times are printed. CC names another compiler than cc. It ends with
# status 1 if an answer is not as it should be: each is checked, with its list of notices, as a caller must. Numbers
# below are of November 2026: instructions, and times as the best of nine on a core of an Intel Xeon at 2.5 GHz that
# other work shares.
#
# A round is seven calls: begin, IX on a root, a file, an index and an interval, X on a record of the interval, commit.
#
# locks: what locks cost.
#
# - A round is made by calls of burlapslate.h with one list of notices for all (`one list`), and by one bs_table_run of
#   all seven. The others beside it hold the four nodes above the record in IX; those elsewhere are 100, of which 50
#   hold a root of their own each and 50 wait for it. 128 transactions can live, so 127 others are the most.
# - An insert and its delete are two calls: a transaction that holds the parents in IX makes a record of a file with
#   three indexes, and deletes it.
# - A wait and its grant are two calls: a lock in X on a root that another transaction holds in X, which waits, with
#   detection at block, and the commit of the holder. They pass from one to the next of 128 transactions that were begun
#   beforehand, each in a slot that has had a lock before, so that a turn has nothing else.
# - A release is a commit. One transaction holds a root in SIX and 127 hold it in IS; all of these convert, the first K
#   to IX and the others to S, and wait. The commit of the one grants the first K. The commit that grants none is that
#   of one of 64 that were granted IX, while 63 still wait. What leads to it is not measured.
#
# No program in C can use a reply with a list of notices for each command, or the calls of the table below the manager:
# they are not measured. The aims, and what was counted: with one list, a round alone at most 5000 (3676) and beside 127
# others at most 6000 (3856, as beside 8); a wait and its grant at most 4000 (1689); a release linear in its grants (865,
# 10956, 21653 and 43074 for 1, 32, 64 and 127). There is no aim for a list of commands (4171 alone, 4351 beside others),
# nor for an insert and its delete (2405). In time a round takes some 0.4 microseconds with one list and 0.5 as a list of
# commands, a wait and its grant 0.2.
#
# sessions: what a table costs that threads share, and what its watchers cost.
#
# - `manager` makes a round by calls of burlapslate.h, and `calls` by those of burlapslate_shared.h, so that the
#   difference is the latch; `lists` by one bs_table_run of all seven.
# - `watched` is the same with a watcher. A round changes nobody's wait, so the watcher is shown nothing: the difference
#   to the same unwatched is the cost of knowing that.
# - `boards`, `questions` and `looks` are one call each: bs_table_read_board, bs_table_group, and bs_table_look.
# - Each is measured alone; beside 100 other transactions, of which 50 hold a root each and 50 wait for it; and beside
#   126 that wait for one root in a queue, and its holder. No thread sleeps for these waits.
# - With 1, 4 and 16 threads a round is one of any of them, on records of their own with nothing in common, and its time
#   is the median of the turns, since several threads have lucky ones. Their instructions are counted together.
#
# No program in C can use watchers that are told every command, the notes that sessions give them, or replies with a
# list of notices each: they are not measured. Counted were: a round 3212 by the manager, 4197 by calls and 3875 by a
# list, whatever waits there are elsewhere, and by calls 108 more with a watcher while nobody waits, and 487 while others
# do (in 0.17 a snapshot after each command, which by its parts is some 92000); a snapshot 1895 alone, 12247 beside 100
# elsewhere and 18105 beside a queue of 126; to show one, after a command by which a wait may have changed, in 0.18.0
# 16491 and 26659 beside these; a question 260, a look 1015. In time: a round 0.41, 0.48 and 0.57 microseconds, a
# snapshot 0.24, 1.4 and 2.0, a look 0.17.
#
# waits: what it costs to read a waits-for snapshot of 128 slots. What is read is compared with what it should be.
#
# - suspects, nobody waits: what a watcher pays while there is nothing to do; one pass over the rows.
# - on_cycle, a chain: slot s waits for s + 1; there is no cycle, and 128 rows are read once each.
# - on_cycle, a ring: the last slot waits for the first too; the columns are read as well.
# - on_cycle, a closed queue: slot s waits for all slots before it, and the first for the last, so that the snapshot has
#   some 8,000 waits.
# - on_cycle and youngest, of the ring and of the closed queue: the first slot's victim.
# - suspects of a chain, a ring, a queue and a closed queue: snapshots in which 127 or 128 slots wait.
#
# No call of C alone searches a wait without a snapshot, or finds the slot whose waits to remove to free the first:
# bench/victims.sh measures the blocks that do. Counted were, in the order of the lines: 1540, then 4320, 14200, 150200,
# 18100 and 154100, and 196600, 199400, 196700 and 199400. In time: 0.14 microseconds, then 0.8, 2.2, 18, 2.6 and 18, and
# some 18 for each of the last four.

rounds=10000
case "${1:-}" in
  locks) rounds=100000 ;;
  sessions | waits) ;;
  *) sed -n '2,5s/^# \{0,1\}//p' "$0" >&2; exit 2 ;;
esac
# shellcheck source-path=SCRIPTDIR source=frame/frame.sh
. "$(dirname "$0")/frame/frame.sh" || exit 2
costs "$1" "${2:-$rounds}"
