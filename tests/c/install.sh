#!/usr/bin/env bash
# install.sh: installs the library into a temporary folder, compiles the first program of README.md with what
# pkg-config says, and runs it; also with a compiler that keeps to ISO C, which the header refuses without these words.
# A number of slots that no library has is refused, --help ends well, and a folder may have a blank in its name. Ends
# with status 1 if anything is not as expected. Without pkg-config it says so, compiles with the same words of its own,
# and ends with status 77: not tried to its end. CC names another compiler than cc.
set -uo pipefail
top=$(cd "$(dirname "$0")/../.." && pwd) || exit 2
work=$(mktemp -d) || exit 2
trap 'rm -rf "$work"' EXIT
"$top/tools/install.sh" "$work/there" --slots 128 || exit 1
if "$top/tools/install.sh" --slots 256 "$work/other" 2>"$work/log" || [ -e "$work/other" ] ||
  ! grep -q '128 slots or 1024, and not 256' "$work/log"; then
  echo "tests/c: a library of 256 slots is not refused" >&2
  exit 1
fi
for script in install c_library; do
  if ! "$top/tools/$script.sh" --help >"$work/help" 2>"$work/log" || [ -s "$work/log" ] ||
    ! grep -q "^$script.sh " "$work/help"; then
    echo "tests/c: $script.sh --help does not print its words alone, or fails" >&2
    exit 1
  fi
done
awk '$0 == "```c" { inside = 1; next } inside && $0 == "```" { exit } inside' "$top/README.md" >"$work/first.c"
[ -s "$work/first.c" ] || { echo "tests/c: no program in README.md" >&2; exit 1; }
words="-I$work/there/include -D_DEFAULT_SOURCE -pthread -L$work/there/lib -lburlapslate"
status=0
if command -v pkg-config >/dev/null; then
  words=$(PKG_CONFIG_PATH=$work/there/lib/pkgconfig pkg-config --cflags --libs burlapslate) || exit 1
else
  echo "tests/c: burlapslate.pc: not tried: pkg-config is not found"
  status=77
fi
for standard in gnu11 c99 c11; do
  # shellcheck disable=SC2086 # CC may have words after the name, and pkg-config says several.
  ${CC:-cc} "-std=$standard" -Wall -Wextra -Werror -o "$work/first" "$work/first.c" $words || exit 1
  timeout 60 "$work/first" || exit 1
done
# shellcheck disable=SC2086 # The same.
if ${CC:-cc} -std=c11 -pthread "-I$work/there/include" -c -o "$work/first.o" "$work/first.c" 2>"$work/log" ||
  ! grep -q 'define _DEFAULT_SOURCE' "$work/log"; then
  echo "tests/c: the header does not refuse ISO C without POSIX" >&2
  exit 1
fi
if [ "$status" -eq 0 ]; then
  "$top/tools/install.sh" "$work/over there" || exit 1
  words=$(PKG_CONFIG_PATH="$work/over there/lib/pkgconfig" pkg-config --cflags --libs burlapslate) || exit 1
  rm -rf "$work/there" && eval "${CC:-cc} -o '$work/first' '$work/first.c' $words" && timeout 60 "$work/first" || exit 1
fi
echo "the_first_program"
exit "$status"
