#!/usr/bin/env bash
# library.sh FUNCTION [WORD..]: what several tools need, as functions of the shell. A script in bash reads this file and
# calls them; any other program runs it with the name of one. Each function answers with its own status, and prints on
# standard error why it failed.
#
# - proof_jobs: prints how many proofs `rt ci` should run in parallel over all crates, by RT_JOBS.
# - sum_of FOLDER: prints the sum (sha256) of the sources in a folder of the repository, such as `crates` or `c`.
# - crates_below CRATE: prints the crate and all crates that it depends on, a line each, lowest first.
# - verdicts_of SUM: reads what `rt ci` printed, and prints what tools/package.sh can say of the proof.
# - headers_for N FOLDER: writes the headers of a library for N slots to a folder, which it makes.
# - wide_sources FOLDER: copies the crates to a folder, over words of 64 bits, for 1,024 slots.
library_top=$(cd "$(dirname "${BASH_SOURCE[0]}")/.." && pwd) || exit 2

# One a processor, if 3 GB are free for each. Prints nothing if less is free: rt then plans by its own rule, which allows
# three times the memory that a proof was seen to need, and so leaves processors idle.
proof_jobs() {
  local processors free_megabytes
  processors=$(nproc) || return
  free_megabytes=$(awk '/^MemAvailable:/ { print int($2 / 1024) }' /proc/meminfo)
  [ "${free_megabytes:-0}" -lt $((3072 * processors)) ] || echo "$processors"
}

# The sum of the list of the folder's files in the order of their bytes, each with its own sum, without what is built
# (out/).
sum_of() (
  cd "$library_top" || return
  [ -d "$1" ] || { echo "library.sh: there is no folder $1" >&2; return 2; }
  find "$1" -name out -prune -o -type f -print0 | LC_ALL=C sort -z | xargs -0 sha256sum | sha256sum | cut -d ' ' -f 1
)

# As crates.txt has them.
crates_below() {
  awk -v top="$1" '
    /^[^#]/ { name = $1; sub(/:$/, "", name); names[++count] = name; line[count] = $0 }
    END {
      wanted[top] = 1
      for (i = count; i >= 1; i--) {
        if (!(names[i] in wanted)) continue
        sub(/^[^:]*:/, "", line[i])
        words = split(line[i], word, " ")
        for (w = 1; w <= words; w++) wanted[word[w]] = 1
      }
      for (i = 1; i <= count; i++) if (names[i] in wanted) print names[i]
    }' "$library_top/crates.txt"
}

# The sum of the crates from before that run (sum_of), the toolchain, and each crate that was proved, in that run or in
# an earlier one on this machine over the same files and libraries.
verdicts_of() {
  local toolchain
  toolchain=$(rt version) || return
  echo "crates $1"
  echo "toolchain $toolchain"
  sed -nE 's/^rt: ([a-z0-9_]+) (proved$|is kept: .*)/proved \1/p' | sort -u
}

headers_for() {
  local header
  mkdir -p "$2" || return
  for header in "$library_top"/include/*.h; do
    sed "s/^#define BS_SLOTS .*/#define BS_SLOTS $1/" "$header" >"$2/${header##*/}" || return
  done
}

# gl_wide_slots is there in place of gl_slots. The folder must be empty, or of an earlier run: then what was proved there
# stays. Answers 2 if it has other files. What was proved here of crates that do not depend on slots is copied too.
wide_sources() {
  local to
  mkdir -p "$1" && to=$(cd "$1" && pwd) || return 2
  [ -e "$to/.wide" ] || [ -z "$(ls -A "$to")" ] || { echo "library.sh: $1 has files that wide_sources has not written" >&2; return 2; }
  touch "$to/.wide" || return 2
  wide_copy "$to" && wide_proofs "$to" || { echo "library.sh: the crates could not be copied to $to" >&2; return 2; }
}

# The sources, with the wide crate under the name of the other.
wide_copy() {
  local slots=$1/crates/gl_slots
  mkdir -p "$1/crates" && rm -rf "$1"/crates/*/{src,specs,proofs} || return
  (cd "$library_top/crates" && tar -cf - --exclude=out --exclude=./gl_slots .) | tar -xf - -C "$1/crates" || return
  mkdir -p "$slots" && cp -a "$1/crates/gl_wide_slots/"{src,specs,proofs} "$slots/" || return
  rm -rf "$1/crates/gl_wide_slots" || return
  find "$slots/"{src,specs,proofs} -type f -exec sed -i 's/gl_wide_slots/gl_slots/g' {} + || return
  grep -v '^gl_wide_slots:' "$library_top/crates.txt" >"$1/crates.txt" || return
  [ ! -e "$library_top/HANDLES" ] || cp "$library_top/HANDLES" "$1/HANDLES"
}

# What was proved of crates that do not depend on slots, which are the same there.
wide_proofs() {
  local crate
  for crate in "$1"/crates/*/; do
    crate=$(basename "$crate")
    [ -d "$library_top/crates/$crate/out" ] && [ ! -e "$1/crates/$crate/out" ] || continue
    crates_below "$crate" | grep -qx gl_slots || cp -a "$library_top/crates/$crate/out" "$1/crates/$crate/out" || return
  done
}

if [ "${BASH_SOURCE[0]}" = "$0" ]; then
  set -uo pipefail
  case "$# ${1:-}" in
    "1 proof_jobs" | "2 sum_of" | "2 crates_below" | "2 verdicts_of" | "3 headers_for" | "2 wide_sources") "$@" ;;
    *) sed -n '2,/^[^#]/s/^# \{0,1\}//p' "$0" >&2; exit 2 ;;
  esac
fi
