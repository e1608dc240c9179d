#!/usr/bin/env bash
# launch.sh PROGRAM [--proved] WORD..: runs a program of this repository with these words and its own standard input,
# and ends with its exit status. If the proved program is missing, or a source is newer, it starts to build it in the
# background, and meanwhile runs the program as it is before any proof, which is slower to start; standard output and
# status are the same. With --proved it waits for the proof.
set -uo pipefail
[ $# -ge 1 ] || { sed -n '2,5s/^# //p' "$0" >&2; exit 2; }
name=$1
shift
here=$(cd "$(dirname "$0")/.." && pwd) || exit 1
out=$here/crates/$name/out

# build_behind: builds the program in the background, in a session of its own, whose number is in building.sid while it
# lasts.
build_behind() {
  mkdir -p "$out" || return
  # shellcheck disable=SC2016 # The words are those of the shell that is started.
  setsid -f bash -c 'echo $$ >"$3"; nice "$1" "$2"; rm -f "$3"' - "$here/tools/build.sh" "$name" "$out/building.sid" \
    </dev/null >/dev/null 2>"$out/building.log"
}

# answer_unproved WORD..: runs the program before any proof, with its answer in $work/answer and its faults in
# $work/faults. Fails if it did not end.
answer_unproved() {
  cat >"$work/input"
  (cd "$here/crates/$name" && rt try -- "$@" <"$work/input" >"$work/answer" 2>"$work/said")
  status=$?
  grep -q '^run=ended .* proved=no$' "$work/said" &&
    sed '/^checked: ended status=/d; /^races: not looked for/d; /^run=ended .* proved=no$/d; /^rt: /d' "$work/said" >"$work/faults"
}

is_waiting=
if [ "${1:-}" = --proved ]; then
  is_waiting=yes
  shift
fi
if [ -z "$is_waiting" ] && ! "$here/tools/build.sh" --look "$name"; then
  work=$(mktemp -d) || exit 1
  trap 'rm -rf "$work"' EXIT
  echo "$name: nothing is proved yet: this answer is the unproved program's, and the proof is being built behind it (crates/$name/out/building.log)" >&2
  build_behind
  if answer_unproved "$@"; then
    cat "$work/answer"
    cat "$work/faults" >&2
    exit "$status"
  fi
  echo "$name: the unproved program gave no answer, so the proof is awaited" >&2
  exec <"$work/input"
  rm -rf "$work"
fi
"$here/tools/build.sh" "$name" || exit 1
exec "$out/$name" "$@"
