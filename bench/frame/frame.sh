# shellcheck shell=bash
# Shared by the scripts of this folder that measure programs in C over the library for C. Each reads it first:
#
#     . "$(dirname "$0")/frame/frame.sh"
#
# It makes a folder $work that is removed when the script ends, and builds the library if that is missing; without a C
# compiler, or a library, it says so and ends the script. CC names another compiler than cc. SLOTS=1024 uses the library
# for so many transactions, in place of that for 128.
set -uo pipefail
top=$(cd "$(dirname "${BASH_SOURCE[0]}")/../.." && pwd) || exit 2
me=$(basename "$0")
compiler=${CC:-cc}
if ! command -v "${compiler%% *}" >/dev/null; then
  echo "$me: no C compiler: $compiler is not found" >&2
  exit 2
fi
work=$(mktemp -d) || exit 2
trap 'rm -rf "$work"' EXIT
slots=${SLOTS:-128}
headers=$("$top/tools/c_library.sh" --headers --slots "$slots") || exit 2
mapfile -t libraries < <("$top/tools/c_library.sh" --slots "$slots" 2>"$work/log")
[ "${#libraries[@]}" -eq 3 ] || { cat "$work/log" >&2; exit 1; }

# compile PROGRAM WORD..: compiles $work/PROGRAM, from sources and with options.
compile() {
  # shellcheck disable=SC2086 # CC may have words after the name.
  $compiler -std=c99 -D_DEFAULT_SOURCE -Wall -Wextra -Werror -O2 -I"$headers" -I"$top/bench/frame" \
    -o "$work/$1" "${@:2}" "$top/bench/frame/frame.c" "${libraries[@]}" -pthread
}

# has_db: whether a program over Berkeley DB can be linked; it says so if not.
has_db() {
  printf '#include <db.h>\nint main(void) { return db_env_create(0, 0); }\n' >"$work/db.c"
  # shellcheck disable=SC2086 # The same.
  $compiler -o "$work/db" "$work/db.c" -ldb 2>/dev/null && return
  echo "Berkeley DB is not at hand (db.h and -ldb): ours alone"
  return 1
}

# has_callgrind: whether instructions can be counted.
has_callgrind() {
  command -v valgrind >/dev/null
}

# instructions WORD..: of one whole run of a program, or of the part that callgrind's options before it select.
# Callgrind counts an instruction that repeats itself once for each repetition, so the C library is told to clear and
# copy without them.
instructions() {
  GLIBC_TUNABLES=glibc.cpu.x86_rep_stosb_threshold=1000000:glibc.cpu.x86_rep_movsb_threshold=1000000 \
    timeout "${patience:-300}" valgrind --tool=callgrind --callgrind-out-file=/dev/null "$@" >"$work/log" 2>&1 ||
    { cat "$work/log" >&2; return 1; }
  sed -n 's/.*Collected : //p' "$work/log"
}

# each FEW MANY WORD..: the instructions of a round: the difference between two runs that differ only in their rounds,
# which are the program's last word, divided by the difference of these.
each() {
  local few=$1 many=$2 less more
  shift 2
  less=$(instructions "$@" "$few") && more=$(instructions "$@" "$many") || return 1
  echo $(((more - less) / (many - few)))
}

# row TITLE COLUMN..
row() {
  printf '%-44s' "$1"
  printf '%9s' "${@:2}"
  echo
}

# costs GROUP ROUNDS: a row for each piece of a group that bench/costs measures, with its instructions and its time.
costs() {
  local word few many title time count
  compile costs "$top"/bench/costs/*.c && "$work/costs" lines "$1" >"$work/lines" &&
    "$work/costs" times "$1" "$2" >"$work/times" || return 1
  has_callgrind || echo "callgrind is not at hand: times alone"
  row "" instr. ns
  while IFS=$'\t' read -r word few many title <&3 && IFS=$'\t' read -r _ time <&4; do
    count=-
    ! has_callgrind || count=$(each "$few" "$many" --toggle-collect='measured*' "$work/costs" play "$word") || return 1
    row "$title" "$count" "$time"
  done 3<"$work/lines" 4<"$work/times"
}
