#!/usr/bin/env bash
# run.sh [--slots N]: compiles the engine over the C library and runs it: with deadlocks found when a wait begins, with
# a watcher, with sessions, with parts, and with each planted fault, which it must find by the lost update or the wrong
# sum that comes of it. Ends with status 1 if something is not as wanted; if there is no C compiler it says so, and ends
# with status 77: not tried. CC names another compiler than cc. N is the number of slots of the library, 128 or 1024
# (tools/c_library.sh).
set -uo pipefail
here=$(cd "$(dirname "$0")" && pwd) || exit 2
top=$here/../..
slots=128
if [ "${1:-}" = --slots ] && [ $# -eq 2 ]; then
  slots=$2
elif [ $# -ne 0 ]; then
  sed -n '2,6s/^# //p' "$0" >&2
  exit 2
fi
headers=$("$top/tools/c_library.sh" --headers --slots "$slots") || exit 2
compiler=${CC:-cc}
if ! command -v "${compiler%% *}" >/dev/null; then
  echo "examples/engine: not tried: there is no C compiler $compiler"
  exit 77
fi
work=$(mktemp -d) || exit 2
trap 'rm -rf "$work"' EXIT

mapfile -t libraries < <("$top/tools/c_library.sh" --slots "$slots" 2>"$work/log")
[ "${#libraries[@]}" -eq 3 ] || { cat "$work/log" >&2; exit 1; }

# shellcheck disable=SC2086 # CC may have words behind the name.
$compiler -std=c99 -D_POSIX_C_SOURCE=200809L -pthread -Wall -Wextra -Werror -O1 -I"$headers" \
  -o "$work/engine" "$here"/*.c "${libraries[@]}" || exit 1

# run WORDS: runs the engine, which must end well, and in time.
run() {
  local status
  echo "engine${*:+ $*}"
  timeout 120 "$work/engine" "$@"
  status=$?
  [ "$status" -eq 0 ] || { echo "examples/engine: engine $*: status $status" >&2; exit 1; }
}

# finds WHAT WORDS: runs the engine with a planted fault, which it must find by what comes of it.
finds() {
  local status
  echo "engine ${*:2}"
  timeout 120 "$work/engine" "${@:2}" >"$work/out" 2>&1
  status=$?
  cat "$work/out"
  [ "$status" -ne 1 ] || ! grep -q "$1" "$work/out" || return 0
  echo "examples/engine: engine ${*:2}: no $1 was found: status $status" >&2
  exit 1
}

run
run --watch
run --sessions
run --parts 4
run --parts 4 --watch --sessions
for parts in 1 4; do
  finds "lost update" --parts "$parts" --skip-lock
  finds "wrong sum" --parts "$parts" --skip-table
done
