#!/usr/bin/env bash
# groups.sh: what 1, 2, 4 and 16 threads do a second with a shared table, and with a group of tables. Run from anywhere:
#
#     bench/groups.sh [SECONDS [PARTS]]
#
# Each transaction locks a record of the thread's own in X, in a file of the thread's own, by its path from the database,
# and commits. For each number of threads a row for each side has its transactions a second, the median of five turns of
# SECONDS (0.3 by default), and how many times those of the table by calls they are. The sides, by turns: a table by
# calls; the same with each transaction in one list; a group of PARTS (16 by default), with the files in parts by turns;
# the group when it keeps intentions; and the group while another transaction has S on an area where none of the threads
# works. Then transactions that lock in X four of 10,000 rows: of a file of the thread's own, in a table by calls and in
# a group that keeps intentions; and of one file, which all threads use, in a table by calls, in a spread file of the
# group, and in that when the group keeps intentions. At last one transaction in 100, and one in 20, locks the database
# in S in place of a record, in a table and in a group that keeps intentions. CC names another compiler than cc.

# shellcheck source-path=SCRIPTDIR source=frame/frame.sh
. "$(dirname "$0")/frame/frame.sh" || exit 2
compile groups "$top/bench/groups/main.c" || exit 1
"$work/groups" "${1:-0.3}" "${2:-16}"
