#!/usr/bin/env bash
# wide.sh: proves the library for 1,024 slots, over gl_wide_slots in place of gl_slots (tools/c_library.sh), and runs
# over it the stories, a crowd of a thousand threads and the engine. The last line is 'wide.sh: N passed'. Ends with
# status 1 at the first failure, with its output. It takes as long as the proof of the library; run it before a release.
# wide.sh [--in FOLDER] CRATE..: proves crates so, in a copy in FOLDER, or else in a temporary folder. What is proved in
# FOLDER is kept, so that a second run there is short. Prints a line for each crate that is proved. Ends with status 1 at
# the first that is not, with what was open.
set -uo pipefail
top=$(cd "$(dirname "$0")/.." && pwd) || exit 2
work=$(mktemp -d) || exit 2
trap 'rm -rf "$work"' EXIT

# passes WHAT WORD..: runs a command that must succeed, and counts it.
passed=0
passes() {
  "${@:2}" >"$work/log" 2>&1 || { cat "$work/log"; echo "wide.sh: $1: failed"; exit 1; }
  echo "wide.sh: $1: passed"
  passed=$((passed + 1))
}

if [ $# -eq 0 ]; then
  passes "the library for 1,024 slots is proved" "$top/tools/c_library.sh" --slots 1024
  passes "the stories and a crowd over it" "$top/tests/c/run.sh" --slots 1024
  passes "the engine over it" "$top/examples/engine/run.sh" --slots 1024
  echo "wide.sh: $passed passed"
  exit 0
fi

scratch=$work
if [ "$1" = --in ]; then
  [ "$#" -ge 3 ] || { echo "usage: tools/wide.sh [--in FOLDER] CRATE.." >&2; exit 2; }
  mkdir -p "$2" && scratch=$(cd "$2" && pwd) || exit 2
  shift 2
fi
for name in "$@"; do
  grep -Eq "^$name( staticlib)?:" "$top/crates.txt" || { echo "wide.sh: no crate $name in crates.txt" >&2; exit 2; }
done

"$top/tools/library.sh" wide_sources "$scratch" || exit 2
for name in "$@"; do
  log=$scratch/$name.log
  if (cd "$scratch/crates/$name" && rt check) >"$log" 2>&1; then
    echo "wide.sh: $name proved"
  else
    grep -E 'error:|no proof:|not proved' "$log" | grep -v '^so far' || tail -n 20 "$log"
    echo "wide.sh: $name is not proved"
    exit 1
  fi
done
