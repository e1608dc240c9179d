#!/usr/bin/env bash
# threads.sh: what 1, 2, 4, 16 and 64 threads do a second with a shared table, and with the lock subsystem of Berkeley
# DB.
#
#     bench/threads.sh [SECONDS [WORD..]]
#
# For each piece of work and each number of threads it prints a line for ours and one for Berkeley DB: transactions a
# second, how many times that of one thread these are, commands a second, the nanoseconds of a transaction at the median
# and at the 99th of a hundred, and the victims of a thousand transactions. WORD names a piece of work (own, own-list,
# own-session, hot, hot-list, nodes, nodes-list, nodes-session, numbers, numbers-list); all by default. CC names another
# compiler than cc. It ends with status 1 if an answer of either side is not as it should be: each is checked. Without
# Berkeley DB a line says so, and only ours is printed.
#
# A turn takes SECONDS (0.3 by default) from the begin of the first thread, and ends when each thread has ended its
# current transaction. Each figure is the median of five turns; the sides run by turns. A transaction's time is from the
# end of the one before to its own end, in buckets of a sixteenth. The threads do nothing but their transactions: no
# engine works between the calls. So the table is always in use, and what threads gain is the least that is possible.
#
# - Own: begin, IX on a database, an area and a file, X on a record of the thread's own, commit. In a session the
#   intentions are kept, and all is one list (bs_session_run); theirs are one lock_vec with the record.
# - Hot: the same with one record for all threads, which wait for each other.
# - By nodes: four rows of 10,000, drawn at random, each read (S) or written (X) at random. A row is a node below a file
#   and below the one interval of its index; each is locked by bs_table_lock_path. Under its lock the row is read, and
#   written if that is drawn. A victim of a deadlock undoes its writes, aborts, and begins the same transaction again,
#   whose time runs on. At the end each write must be there. In a session the intentions above the rows are kept.
# - By numbers: the same by bs_table_lock_row_path, after a lock of the file by its path.
# - By calls each command is a call. In lists a short transaction is one bs_table_run. Of the others the begin and the
#   first path are one, by numbers with the first row. The commit is alone, since an engine reads its rows before.
# - Berkeley DB's records have an intention on the file and on a page of a hundred rows above them; with it a begin is
#   counted as a command too. In lists a row's three locks, or the four of a short transaction, are one lock_vec. It has
#   DB_THREAD, a locker for each thread, DB_LOCK_YOUNGEST, and one partition or its default number: the one that makes
#   more transactions is printed.

# shellcheck source-path=SCRIPTDIR source=frame/frame.sh
. "$(dirname "$0")/frame/frame.sh" || exit 2
seconds=${1:-0.3}
named=("${@:2}")

# build: builds the program, with the side of Berkeley DB if a program over it can be linked.
build() {
  local sources=("$top"/bench/threads/{main,ours}.c)
  ! has_db || sources+=(-DHAVE_DB "$top/bench/threads/theirs.c" -ldb)
  compile threads "${sources[@]}"
}

# table FIGURES: the lines of a piece of work.
table() {
  declare -A one
  local threads side transactions commands median late victims
  while IFS=$'\t' read -r threads side transactions commands median late victims; do
    [ "$side" = ours ] || side="Berkeley DB"
    [ "$threads" != 1 ] || one[$side]=$transactions
    line "$threads" "$side" "$transactions" "$(awk -v all="$transactions" -v one="${one[$side]}" \
      'BEGIN { printf "%.2f", all / one }')" "$commands" "$median" "$late" "$victims"
  done <"$1"
}

# line COLUMN..
line() {
  printf '%8s  %-12s%11s%8s%13s%11s%12s%9s\n' "$@"
}

build || exit 1
"$work/threads" lines >"$work/lines" || exit 1
[ "${#named[@]}" -gt 0 ] || mapfile -t named < <(cut -f 1 "$work/lines")
echo "on $(nproc) processors, $seconds seconds a turn"
for word in "${named[@]}"; do
  title=$(sed -n "s/^$word\t//p" "$work/lines")
  [ -n "$title" ] || { echo "threads.sh: there is no work $word" >&2; exit 2; }
  timeout 1200 "$work/threads" times "$seconds" "$word" >"$work/figures" || exit 1
  echo
  echo "$title"
  line threads "" trans./s "to one" commands/s "median ns" "99th ns" victims
  table "$work/figures"
done
