#!/usr/bin/env bash
# plus.sh: compiles the headers as C++ and runs a session. Ends with status 1 if anything is not as expected; without a
# C++ compiler it says so, and ends with status 77: not tried. CXX names another compiler than c++.
set -uo pipefail
top=$(cd "$(dirname "$0")/../.." && pwd) || exit 2
compiler=${CXX:-c++}
if ! command -v "${compiler%% *}" >/dev/null; then
  echo "tests/c: the headers as C++: not tried: there is no C++ compiler $compiler"
  exit 77
fi
work=$(mktemp -d) || exit 2
trap 'rm -rf "$work"' EXIT

mapfile -t libraries < <("$top/tools/c_library.sh" 2>"$work/log")
[ "${#libraries[@]}" -eq 3 ] || { cat "$work/log" >&2; exit 1; }
# shellcheck disable=SC2086 # CXX may have words after the name.
$compiler -pthread -Wall -Wextra -Werror -I"$top/include" -o "$work/plus" "$top/tests/c/plus.cc" "${libraries[@]}" || exit 1
timeout 60 "$work/plus" || exit 1
echo "the_headers_in_cpp"
