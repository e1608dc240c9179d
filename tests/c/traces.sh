#!/usr/bin/env bash
# traces.sh: plays traces of tables by gltool, which must answer as the trace says: those of the stories of traces.c and of
# the crowd. Then it changes one answer of a trace, which must be found. Ends with status 1 if anything is not as expected;
# without a C compiler or a proved gltool it says so, and ends with status 77: not tried. CC names another compiler than cc,
# GLTOOL another program than crates/gltool/out/gltool.
set -uo pipefail
top=$(cd "$(dirname "$0")/../.." && pwd) || exit 2
compiler=${CC:-cc} tool=${GLTOOL:-$top/crates/gltool/out/gltool}
if ! command -v "${compiler%% *}" >/dev/null; then
  echo "tests/c: traces: not tried: there is no C compiler $compiler"
  exit 77
fi
if [ ! -x "$tool" ]; then
  echo "tests/c: traces: not tried: there is no $tool"
  exit 77
fi
work=$(mktemp -d) || exit 2
trap 'rm -rf "$work"' EXIT

mapfile -t libraries < <("$top/tools/c_library.sh" 2>"$work/log")
[ "${#libraries[@]}" -eq 3 ] || { cat "$work/log" >&2; exit 1; }

# compile PROGRAM WORD..: from the source of its name in this folder, which includes the table.
compile() {
  # shellcheck disable=SC2086 # CC may have words after the name.
  $compiler -std=c99 -D_POSIX_C_SOURCE=200809L -pthread -O1 -I"$top/include" -I"$top/c" -o "$work/$1" \
    "$top/tests/c/$1.c" "$top"/c/burlapslate_{group,running}.c "${libraries[@]:1}" "${@:2}"
}

# says TRACE: the answers and notices that a trace says.
says() {
  sed -n 's/^# [0-9][0-9]*\.[0-9]* //p' "$1"
}

# plays TRACE: whether gltool answers so, with the words that the trace names.
plays() {
  local words
  read -r -a words < <(sed -n 's/^# gltool //p' "$1")
  "$tool" "${words[@]}" <"$1" >"$work/answers" && says "$1" | cmp -s - "$work/answers"
}

compile traces -Wl,--wrap=malloc,--wrap=realloc,--wrap=free || exit 1
compile crowd "$top/c/burlapslate_trace.c" || exit 1
mkdir "$work/written" || exit 1
timeout 60 "$work/traces" 20 "$work/written" >"$work/log" 2>&1 || { cat "$work/log" >&2; exit 1; }
timeout 200 "$work/crowd" 4 20 "$work/written" >"$work/log" 2>&1 || { cat "$work/log" >&2; exit 1; }
status=0 count=0 lines=0
for trace in "$work"/written/*.script; do
  count=$((count + 1))
  lines=$((lines + $(says "$trace" | wc -l)))
  plays "$trace" && continue
  echo "traces.sh: gltool answers $(basename "$trace") otherwise" >&2
  says "$trace" | diff - "$work/answers" | head -n 5 >&2
  status=1
done
sed 's/^\(# [0-9.]*\) told t0 granted X/\1 told t0 granted S/' "$work/written/waits_and_a_deadlock.script" >"$work/changed"
! plays "$work/changed" || { echo "traces.sh: an answer that was changed is not found" >&2; status=1; }
[ "$status" -eq 0 ] && echo "traces_are_played: $count with $lines answers"
exit "$status"
