#!/usr/bin/env bash
# run.sh [--slots N]: compiles the stories over the C library, and runs them. Prints a line for each story, of one thread
# and of a shared table, for each scenario against a naive lock manager, and for each setting of a crowd. A program with the
# headers of another library is refused, and one that passes a lent manager to a command does not compile. Then it plants
# nine faults in the shared table, which the stories must find. Ends with status 1 if anything is not as expected; without
# a C compiler it says so, and ends with status 77: not tried. CC names another compiler than cc. N is the number of slots
# of the library, 128 or 1024 (tools/c_library.sh); faults are planted only for 128.
set -uo pipefail
top=$(cd "$(dirname "$0")/../.." && pwd) || exit 2
slots=128
if [ "${1:-}" = --slots ] && [ $# -eq 2 ]; then
  slots=$2
elif [ $# -ne 0 ]; then
  sed -n '2,7s/^# //p' "$0" >&2
  exit 2
fi
headers=$("$top/tools/c_library.sh" --headers --slots "$slots") || exit 2
compiler=${CC:-cc}
if ! command -v "${compiler%% *}" >/dev/null; then
  echo "tests/c: not tried: there is no C compiler $compiler"
  exit 77
fi
work=$(mktemp -d) || exit 2
trap 'rm -rf "$work"' EXIT

mapfile -t libraries < <("$top/tools/c_library.sh" --slots "$slots" 2>"$work/log")
[ "${#libraries[@]}" -eq 3 ] || { cat "$work/log" >&2; exit 1; }

# compile PROGRAM WORD..: from the source of its name in this folder. Those that look into a table include its source.
compile() {
  local with=("${libraries[@]}")
  case $1 in
    shared | crowd | asks | begins | waits | sessions | own_ends | row_paths) with=(-I"$top/c" "$top"/c/burlapslate_{group,running,trace}.c "${libraries[@]:1}") ;;
    running) with=(-I"$top/c" "$top"/c/burlapslate_{group,trace}.c "${libraries[@]:1}") ;;
    traces) with=(-I"$top/c" "$top"/c/burlapslate_{group,running}.c "${libraries[@]:1}") ;;
    groups | group_asks) with=(-I"$top/c" "${libraries[@]}") ;;
    group_replay) with=(-I"$top/c" "$top"/c/burlapslate_{running,trace}.c "${libraries[@]:1}") ;;
    schemas | twins | scenarios) with=("$top/tests/c/naive.c" "${libraries[@]}") ;;
  esac
  # shellcheck disable=SC2086 # CC may have words after the name.
  $compiler -std=c99 -D_POSIX_C_SOURCE=200809L -pthread -Wall -Wextra -Werror -O1 -I"$headers" -o "$work/$1" \
    "$top/tests/c/$1.c" "${with[@]}" "${@:2}"
}

# fails WORD..: says so, and ends the run.
fails() {
  echo "tests/c: $*" >&2
  exit 1
}

# Each command with a manager has its twin with a table, and no question has one. The library exports both.
exported=$(nm -g --defined-only "${libraries[0]}" | awk '$2 == "T" { print $3 }')
managers=("$headers"/burlapslate{,_splits}.h) tables=("$headers"/burlapslate_{shared,splits}.h)
for name in $(sed -n 's/^static inline [a-z_]* bs_\([a-z_]*\)(bs_manager \*manager.*/\1/p' "${managers[@]}"); do
  grep -Eq "bs_table_$name\(bs_table \*{1,2}table" "${tables[@]}" || fails "there is no bs_table_$name"
  for each in "bs_$name" "bs_table_$name"; do grep -qx "$each" <<<"$exported" || fails "$each is not exported"; done
done
for name in $(sed -n 's/^static inline [a-z_]* bs_\([a-z_]*\)(const bs_manager \*manager.*/\1/p' "$headers/burlapslate.h"); do
  # A savepoint is set so often that the one question has a call of its own.
  [ "$name" = mark ] || ! grep -q "bs_table_$name(" "$headers/burlapslate_shared.h" || fails "there is a bs_table_$name"
done
"$top/tools/names.sh" || exit 1

# The library allocates by malloc and realloc, frees by free, and exports only its own names.
! nm -u "${libraries[@]:0:2}" | grep -qw -e calloc -e aligned_alloc -e posix_memalign || fails "it has another allocator"
! nm -g --defined-only "${libraries[0]}" | awk 'NF == 3 && $3 !~ /^(bs_|_[.]stapsdt[.]base$)/' | grep -q . || fails "it shows other names"

# lends CALL: whether a program compiles that makes this call with what a table lends.
lends() {
  # shellcheck disable=SC2086 # CC may have words after the name.
  $compiler -std=c99 -D_POSIX_C_SOURCE=200809L -Werror -fsyntax-only -I"$headers" "-DCALL=$1" "$top/tests/c/lent.c" \
    2>"$work/log"
}
for call in 'bs_held(lent, txn, node)' 'bs_verdict(lent, txn, node, BS_X)' 'bs_ended(lent)' 'bs_dump(lent, stdout)'; do
  lends "$call" || { cat "$work/log" >&2; fails "$call does not compile with a manager that is lent"; }
done
for call in 'bs_lock(lent, txn, node, BS_X, told)' 'bs_commit(lent, txn, told)' 'bs_begin(lent)' 'bs_end(lent)' \
  'bs_watch(lent, NULL)' 'bs_make(lent, NULL)'; do
  ! lends "$call" || fails "$call compiles with a manager that is lent"
  grep -q 'qualifier' "$work/log" || fails "$call does not compile for another reason"
done
echo "what_is_lent_is_asked_alone"

compile stories -Wl,--wrap=malloc,--wrap=realloc,--wrap=free || exit 1
timeout 60 "$work/stories" || exit 1
compile manager -Wl,--wrap=malloc,--wrap=realloc,--wrap=free && timeout 60 "$work/manager" || exit 1
compile awaits && timeout 60 "$work/awaits" || exit 1
compile schemas -Wl,--wrap=malloc,--wrap=realloc,--wrap=free || exit 1
timeout 60 "$work/schemas" || exit 1
compile twins || exit 1
timeout 60 "$work/twins" || exit 1
compile scenarios || exit 1
timeout 60 "$work/scenarios" || exit 1
# In this one a path of a list is granted on its way by what it has set off, and waits further up.
timeout 60 "$work/scenarios" 1000 1090 || exit 1
compile many -Wl,--wrap=malloc,--wrap=realloc,--wrap=free || exit 1
timeout 100 "$work/many" || exit 1
compile shared -Wl,--wrap=malloc,--wrap=realloc,--wrap=free || exit 1
timeout 60 "$work/shared" || exit 1
compile asks -Wl,--wrap=malloc,--wrap=realloc,--wrap=free || exit 1
timeout 120 "$work/asks" || exit 1
compile begins -Wl,--wrap=malloc,--wrap=realloc,--wrap=free || exit 1
timeout 60 "$work/begins" || exit 1
compile waits -Wl,--wrap=malloc,--wrap=realloc,--wrap=free || exit 1
timeout 60 "$work/waits" || exit 1
compile sessions -Wl,--wrap=malloc,--wrap=realloc,--wrap=free || exit 1
timeout 60 "$work/sessions" || exit 1
compile own_ends -Wl,--wrap=malloc,--wrap=realloc,--wrap=free || exit 1
timeout 60 "$work/own_ends" || exit 1
compile row_paths -Wl,--wrap=malloc,--wrap=realloc,--wrap=free || exit 1
timeout 60 "$work/row_paths" || exit 1
compile running -Wl,--wrap=malloc,--wrap=realloc,--wrap=free || exit 1
timeout 60 "$work/running" || exit 1
compile traces -Wl,--wrap=malloc,--wrap=realloc,--wrap=free || exit 1
timeout 60 "$work/traces" || exit 1
compile groups -Wl,--wrap=malloc,--wrap=realloc,--wrap=free || exit 1
timeout 60 "$work/groups" || exit 1
compile parts -Wl,--wrap=malloc,--wrap=realloc,--wrap=free || exit 1
timeout 60 "$work/parts" || exit 1
compile group_asks -Wl,--wrap=malloc,--wrap=realloc,--wrap=free || exit 1
timeout 60 "$work/group_asks" || exit 1
compile group_replay -Wl,--wrap=malloc,--wrap=realloc,--wrap=free || exit 1
timeout 60 "$work/group_replay" 2>"$work/log" || { cat "$work/log" >&2; exit 1; }
compile crowd || exit 1
# A thousand threads begin one transaction each, and may take a minute.
few=()
[ "$slots" = 128 ] || few=(1 60)
timeout 200 "$work/crowd" "${few[@]}" 2>"$work/log" || { cat "$work/log" >&2; exit 1; }

# Headers of another library. The last number of a version makes no difference.
ours=$headers headers=$work/other other=1024
[ "$slots" = 128 ] || other=128
# refused STATUS: a program with these headers is refused so.
refused() {
  compile other_headers "-DREFUSED=$1" || exit 1
  timeout 60 "$work/other_headers" || exit 1
}
# with NUMBER VALUE: our headers, with another number of the version.
with() {
  cp "$ours"/*.h "$headers/" && sed -i "s/^#define BS_VERSION_$1 .*/#define BS_VERSION_$1 $2/" "$headers/burlapslate.h"
}
"$top/tools/library.sh" headers_for "$other" "$headers" || exit 1
refused BS_OTHER_SLOTS
sed -i 's/^#define BS_VERSION_MINOR .*/#define BS_VERSION_MINOR 999/' "$headers/burlapslate.h" && refused BS_OTHER_VERSION
with MINOR 999 && refused BS_OTHER_VERSION
with MAJOR 9 && refused BS_OTHER_VERSION
with PATCH 999 && compile stories -Wl,--wrap=malloc,--wrap=realloc,--wrap=free || exit 1
timeout 60 "$work/stories" >"$work/log" || fails "a library of another last number is refused"
[ "$slots" = 128 ] || exit 0
"$top/tests/c/faults.sh" commit-forgets-to-wake early-return asked-row-keeps-no-keys one-slot-is-handed-on \
  skip-passes-refusals awaited-instant-stays-held asks-are-told-under-the-latch path-is-awaited-as-a-node who-rests-has-a-name \
  "${libraries[@]:1}" || exit 1
