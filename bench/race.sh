#!/usr/bin/env bash
# race.sh: what the same work costs through the library for C and through the lock subsystem of Berkeley DB.
#
#     bench/race.sh [ROUNDS]
#
# It prints a line for each piece of work: nanoseconds by ours, by theirs and their ratio, and the same for instructions
# if valgrind's callgrind is installed. A ratio is ours by theirs. Without Berkeley DB a line says so, and only ours is
# printed. CC names another compiler than cc. It ends with status 1 if an answer of either side is not as it should be:
# each is checked, also in what is measured.
#
# Nanoseconds are of a round: the best of nine turns of ROUNDS rounds (50000 by default; fewer of long work), and with
# threads the median; the sides run by turns. Instructions are of a round too: the difference between two runs that
# differ only in their rounds; for the commit, of that call alone. Those of all threads are counted. Callgrind counts an
# instruction that repeats itself once for each repetition, so the C library is told to clear and copy without them.
#
# Theirs is an environment with DB_INIT_LOCK, DB_PRIVATE and DB_CREATE, one partition, and names in the form of its own
# page locks, which is the fastest that was found; it looks for deadlocks when a lock waits, as ours does. It has
# DB_THREAD only if a line says so, or if its callers wait, which needs two threads. If there is a choice, it is
# measured with a locker that is kept for all transactions and with one for each, and its lesser number is printed, of
# nanoseconds and of instructions each.
#
# - A short transaction is begin, intentions on a database, an area and a file, a lock on a record, and commit: IX and X
#   to write, IS and S to read. Each lock is a call; in one line the four are one call, bs_lock_path and lock_vec. The
#   others hold IX on all but the record. 128 transactions can live with ours, so 127 others are the most; with
#   SLOTS=1024 also 1,000 others are tried.
# - A wait and its grant: one transaction holds a node in X, another requests it and waits, and the first one's commit
#   grants it. Their call that waits blocks its thread, so their round needs two: they hand the lock to and fro, and a
#   release and the next request are one lock_vec. No call of ours blocks, so our round is three calls in one thread,
#   begin, lock and commit; the time of that line compares it with a switch of threads. In another line ours has two
#   threads as well, with a mutex, and a condition variable each, which is the same work; its time is mostly the switch.
# - A deadlock of two: both hold a node in X and request the other's. The younger is chosen as victim and aborts, and
#   the older is granted and commits. Ours is in one thread, and in another line in two as theirs; both then meet at a
#   barrier twice a round, on either side.
# - The commit is that of 1,000 records in X and three nodes in IX. Acquiring them is not measured. A rollback to a
#   savepoint is the release of the records alone. Theirs has none.
# - The lines of bs_table are calls of include/burlapslate_shared.h: a short transaction in one thread, alone, in a
#   session that keeps its intentions, with its locks in one call (theirs has a lock_vec) or all in one list, and beside a thread that reads
#   snapshots all the time, whose instructions are not counted; S on the root that 126 sessions hold in IX, with two
#   nodes below, and rest: the lock alone, which ends them; a wait and its grant between two
#   threads, in which a commit and the next request are one bs_table_run; 1, 4 and 16 threads; and 4 and 16 with all of
#   it in one bs_table_run, and with the four locks in one lock_vec of theirs. Theirs has DB_THREAD in all.
# - The four threads do short transactions on records of their own; a round is one transaction of any of them. Ours has
#   one mutex, held during each call. Theirs is measured likewise, without DB_THREAD, and with DB_THREAD and no mutex,
#   with one partition and with its default number.
# - Last are the threads of bench/threads.sh on records of their own and on one for all, by calls and in lists:
#   transactions and commands a second, and how long one takes.

# shellcheck source-path=SCRIPTDIR source=frame/frame.sh
. "$(dirname "$0")/frame/frame.sh" || exit 2
rounds=${1:-50000}

# build: builds the program, with the side of Berkeley DB if a program over it can be linked.
build() {
  local sources=("$top"/bench/race/{main,ours,table}.c)
  ! has_db || sources+=(-DHAVE_DB "$top/bench/race/theirs.c" -ldb)
  compile race "${sources[@]}"
}

# count WORD WAY: the instructions of a round; for the commit, and for one thread with a table, those of the measured
# part.
count() {
  local few=1000 many=3000 measured=()
  case $1 in
    commit | back | table-resting) few=2 many=6 ;;
  esac
  case $1.$2 in
    commit.* | back.* | table.ours | table-session.ours | table-session-list.ours | table-watched.ours | table-resting.ours) measured=(--toggle-collect='measured*') ;;
  esac
  each "$few" "$many" "${measured[@]}" "$work/race" play "$1" "$2"
}

# least WORD WAYS: the instructions of a round by theirs, in the way that needs fewest; "-" for no ways.
least() {
  local way count best=-
  for ((way = 0; way < $2; way++)); do
    count=$(count "$1" "$way") || return 1
    [ "$best" != - ] && [ "$best" -le "$count" ] || best=$count
  done
  echo "$best"
}

# ratio OURS THEIRS: with two decimals; "-" if there is none.
ratio() {
  case "$1$2" in
    *-*) echo - ;;
    *) awk -v ours="$1" -v theirs="$2" 'BEGIN { printf "%.2f\n", theirs == 0 ? 0 : ours / theirs }' ;;
  esac
}

build || exit 1
timeout 600 "$work/race" times "$rounds" >"$work/times" || exit 1
"$work/race" lines >"$work/lines" || exit 1
if has_callgrind; then
  row "" "" ns "" "" instr. ""
  row "" ours theirs ratio ours theirs ratio
else
  echo "callgrind is not at hand: times alone"
  row "nanoseconds" ours theirs ratio
fi
while IFS=$'\t' read -r word ways title <&3 && IFS=$'\t' read -r _ ours theirs <&4; do
  columns=("$ours" "$theirs" "$(ratio "$ours" "$theirs")")
  if has_callgrind; then
    ours=$(count "$word" ours) && theirs=$(least "$word" "$ways") || exit 1
    columns+=("$ours" "$theirs" "$(ratio "$ours" "$theirs")")
  fi
  row "$title" "${columns[@]}"
done 3<"$work/lines" 4<"$work/times"
echo
"$top/bench/threads.sh" 0.2 own own-list hot hot-list
