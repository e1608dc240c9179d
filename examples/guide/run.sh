#!/usr/bin/env bash
# run.sh: looks whether each piece of C that docs/ENGINES.md shows stands in the examples, compiles the guide's
# program over the C library, and runs it: it prints a line for each topic. Ends with status 1 where something
# is not as wanted; where there is no C compiler it says so, and ends with status 77: not tried. CC names another
# compiler than cc.
set -uo pipefail
cd "$(dirname "$0")/../.." || exit 2
tools/pieces.sh docs/ENGINES.md examples/guide/*.[ch] examples/engine/*.[ch] || exit 1

compiler=${CC:-cc}
if ! command -v "${compiler%% *}" >/dev/null; then
  echo "examples/guide: not tried: there is no C compiler $compiler"
  exit 77
fi
work=$(mktemp -d) || exit 2
trap 'rm -rf "$work"' EXIT

mapfile -t libraries < <(tools/c_library.sh 2>"$work/log")
[ "${#libraries[@]}" -eq 3 ] || { cat "$work/log" >&2; exit 1; }

# shellcheck disable=SC2086 # CC may have words behind the name.
$compiler -std=c99 -D_POSIX_C_SOURCE=200809L -pthread -Wall -Wextra -Werror -O1 -Iinclude -Iexamples/engine \
  -o "$work/guide" examples/guide/*.c examples/engine/check.c "${libraries[@]}" || exit 1
timeout 60 "$work/guide" || exit 1
