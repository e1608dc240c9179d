#!/usr/bin/env bash
# names.sh [--list]: counts the public names of the library for C: the functions, types and macros that burlapslate.h
# and burlapslate_shared.h declare, and their lines. Fields, enumerations with their values, and guards are not counted.
# Prints both counts, or with --list the names. Ends with status 1 if there are more than 150 names or 1,500 lines.
set -uo pipefail
top=$(cd "$(dirname "$0")/.." && pwd) || exit 2
headers=("$top"/include/burlapslate{,_shared}.h)
names=$(sed -nE -e 's/^(static inline )?[a-z_0-9]+( [a-z_0-9]+)* \*?(bs_[a-z_0-9]+)\(.*/\3/p' \
  -e 's/^\} (bs_[a-z_]+);.*/\1/p' -e 's/^typedef [a-z_0-9 ]+ (bs_[a-z_]+);.*/\1/p' \
  -e 's/^#define (BS_[A-Z_]+).*/\1/p' "${headers[@]}" |
  grep -vx 'BURLAPSLATE_.*' | sort -u)
if [ "${1:-}" = --list ]; then
  echo "$names"
  exit
fi
count=$(wc -l <<<"$names") lines=$(cat "${headers[@]}" | wc -l)
echo "$count public names, $lines lines"
[ "$count" -le 150 ] && [ "$lines" -le 1500 ] || { echo "names.sh: more than 150 names, or than 1500 lines" >&2; exit 1; }
