#!/usr/bin/env bash
# probes.sh: compiles what times waits, and looks for its probes, with as many arguments as docs/ENGINES.md says. Ends with
# status 1 if one is missing; without a C compiler, sys/sdt.h (Debian: systemtap-sdt-dev) or readelf it says so, and ends
# with status 77: not tried. CC names another compiler than cc.
set -uo pipefail
top=$(cd "$(dirname "$0")/../.." && pwd) || exit 2
compiler=${CC:-cc}
for tool in "${compiler%% *}" readelf; do
  command -v "$tool" >/dev/null || { echo "tests/c: probes: not tried: there is no $tool"; exit 77; }
done
work=$(mktemp -d) || exit 2
trap 'rm -rf "$work"' EXIT

# compile TO WORD..: the source.
compile() {
  # shellcheck disable=SC2086 # CC may have words after the name.
  $compiler -std=c99 -D_POSIX_C_SOURCE=200809L -pthread -O2 -fPIC -Wall -Wextra -Werror -I"$top/include" "${@:2}" \
    -c -o "$work/$1" "$top/c/burlapslate_running.c"
}
# shellcheck disable=SC2086
if ! echo '#include <sys/sdt.h>' | $compiler -x c -fsyntax-only - 2>/dev/null; then
  echo "tests/c: probes: not tried: there is no sys/sdt.h"
  exit 77
fi
compile running.o || exit 1
readelf -n "$work/running.o" >"$work/notes" || exit 1
status=0
# has NAME COUNT: whether a probe of this name has so many arguments.
has() {
  local words
  words=$(sed -n "/Name: $1\$/,/Arguments:/s/.*Arguments: //p" "$work/notes" | awk '{ print NF }' | sort -u)
  [ "$words" = "$2" ] || { echo "probes.sh: the probe $1 has '$words' arguments, and not $2" >&2; status=1; }
}
has wait 6
has grant 7
has victim 7
has timeout 7
[ "$status" -eq 0 ] && echo "probes_are_there"
exit "$status"
