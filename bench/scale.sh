#!/usr/bin/env bash
# scale.sh: what a record costs among few and among many, through the library for C, and the same locks through the lock
# subsystem of Berkeley DB.
#
#     bench/scale.sh [MOST]
#
# It prints a line for each step, order and side, with a column for 10000, 100000, 1000000 records and so on up to MOST
# (1000000 by default): the instructions for a record, if valgrind's callgrind is installed, and its nanoseconds.
# Berkeley DB stores nothing of an unlocked record, so it has no insert and no delete. Without it a line says so, and
# only ours is printed. CC names another compiler than cc. A record that is adopted, by its node or by its row's number,
# exists only while it is locked. The interval of all is split and merged once.
#
# - A record has one index, and is with all others in one interval. Each step visits all records, by increasing key or
#   at random, a hundred in a transaction, with intentions on four nodes above; or all in one transaction.
# - Last are the threads of bench/threads.sh on rows of 10,000, by nodes and by numbers.

# shellcheck source-path=SCRIPTDIR source=frame/frame.sh
. "$(dirname "$0")/frame/frame.sh" || exit 2
most=${1:-1000000}
patience=3000

# build: builds the program, with the side of Berkeley DB if a program over it can be linked.
build() {
  local sources=("$top"/bench/scale/{main,ours}.c -g)
  sides=(ours)
  if has_db; then
    sources+=(-DHAVE_DB "$top/bench/scale/theirs.c" -ldb)
    sides+=(theirs)
  fi
  compile scale "${sources[@]}"
}

# counted ORDER SIDE RECORDS: the instructions of each step, as lines of its function and a number, of which the greatest
# is that of the whole step.
counted() {
  instructions --callgrind-out-file="$work/profile" "$work/scale" "$@" >/dev/null || return 1
  callgrind_annotate --inclusive=yes --threshold=100 "$work/profile" 2>/dev/null |
    sed -n 's/^ *\([0-9,]*\) .*:\(step_[a-z_]*\).*/\2 \1/p' | tr -d ,
}

# rows ORDER SIDE: a line for each step, with a column for each number of records.
rows() {
  local order=$1 side=$2 records word title time
  declare -A line
  local titles=()
  for ((records = 10000; records <= most; records *= 10)); do
    timeout "$patience" "$work/scale" "$order" "$side" "$records" >"$work/times" || return 1
    ! has_callgrind || counted "$order" "$side" "$records" >"$work/counts" || return 1
    while IFS=$'\t' read -r time title word; do
      local count=-
      ! has_callgrind || count=$(awk -v word="$word" -v n="$records" '$1 == word && $2 > most { most = $2 } END { printf "%d", most / n }' "$work/counts")
      [ -n "${line[$title]+is}" ] || titles+=("$title")
      line[$title]+=$(printf '%9s%9s' "$count" "$time")
    done <"$work/times"
  done
  for title in "${titles[@]}"; do
    printf '%-34s%-8s%-8s%s\n' "$title" "$order" "$side" "${line[$title]}"
  done
}

build || exit 1
printf '%-50s' "instructions and nanoseconds a record, of"
for ((records = 10000; records <= most; records *= 10)); do printf '%18s' "$records"; done
echo
for side in "${sides[@]}"; do
  for order in rising random; do rows "$order" "$side" || exit 1; done
done
echo
"$top/bench/threads.sh" 0.2 nodes nodes-list numbers numbers-list
