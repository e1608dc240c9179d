#!/usr/bin/env bash
# build.sh [--look] PROGRAM: proves a program of this repository with all crates that it depends on, in parallel if
# possible, and leaves it as crates/PROGRAM/out/PROGRAM. Does nothing if it is there and no source is newer. If
# another build of it runs, waits for that one. Reports its progress on standard error. The proof is that of
# `rt ci`, on a copy of these crates without mutants, and is kept for `rt ci`.
# With --look it builds nothing, and ends with status 1 if there is something to build.
set -uo pipefail
looks=
if [ "${1:-}" = --look ]; then
  looks=yes
  shift
fi
[ $# -eq 1 ] || { sed -n '2,6s/^# //p' "$0" >&2; exit 2; }
name=$1
here=$(cd "$(dirname "$0")/.." && pwd) || exit 1
out=$here/crates/$name/out

# is_old: whether there is no program, or a source is newer than it.
is_old() {
  [ ! -x "$out/$name" ] || [ ! -e "$out/built" ] ||
    [ -n "$(find "$here/crates.txt" "$here/crates" -name out -prune -o -type f -newer "$out/built" -print -quit)" ]
}

# Adds to `crates` the crates of this repository that a crate depends on, each after those that it uses, and the crate
# itself last.
crates=()
add() {
  local crate uses
  read -ra uses < <(sed -n "s/^$1\( [^:]*\)\{0,1\}://p" "$here/crates.txt")
  for crate in "${uses[@]}"; do
    case " ${crates[*]-} " in
      *" $crate "*) ;;
      *) [ ! -d "$here/crates/$crate" ] || add "$crate" ;;
    esac
  done
  crates+=("$1")
}

# copy: copies the crates that the program depends on to a repository of their own in $work/copy.
copy() {
  local crate
  mkdir -p "$work/copy/.git" "$work/copy/crates" && cp "$here/HANDLES" "$work/copy/" || return
  for crate in "${crates[@]}"; do
    sed -n "/^$crate\( [^:]*\)\{0,1\}:/p" "$here/crates.txt" >>"$work/copy/crates.txt" || return
    tar -C "$here/crates" --exclude="$crate/out" --exclude="$crate/must-fail" --exclude="$crate/wrong" -cf - "$crate" |
      tar -C "$work/copy/crates" -xf - || return
  done
}

# Reads what rt prints, and reports each crate when it is proved.
tell() {
  local line count=0
  while IFS= read -r line; do
    case $line in
      "rt: "*" proved" | "rt: "*" is kept: "*)
        line=${line#rt: }
        count=$((count + 1))
        echo "$name: $count of ${#crates[@]}: ${line%% *} proved" >&2
        ;;
    esac
  done
}

if [ "$looks" ]; then
  ! is_old
  exit
fi
mkdir -p "$out" || exit 1
exec 9>"$out/building" || exit 1
flock 9 || exit 1
is_old || exit 0

work=$(mktemp -d) || exit 1
trap 'rm -rf "$work"' EXIT
touch "$work/mark"
add "$name"
copy || exit 1
echo "$name: building: ${#crates[@]} crates are proved, which takes some twenty minutes on four cores the first time" >&2
# Few crates can be proved in parallel here, so rt may give one crate several processors.
(cd "$work/copy" && CI='' rt ci </dev/null 2>&1 9>&-) | tee "$work/log" | tell
if [ "${PIPESTATUS[0]}" -ne 0 ]; then
  cat "$work/log" >&2
  exit 1
fi
# (under another name first, since the program may be running)
cp "$work/copy/crates/$name/out/$name" "$out/$name.new" && mv "$out/$name.new" "$out/$name" && mv "$work/mark" "$out/built"
