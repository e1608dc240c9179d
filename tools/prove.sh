#!/usr/bin/env bash
# prove.sh FOLDER: runs `rt ci` at the top of the repository, with its status, its output and its last line.
# In parallel it runs `rt ci` over the longest chain of crates that depend on each other, in a copy in FOLDER without
# mutants. If RT_JOBS is set, `rt ci` over all gives one processor to each proof, and two of four are idle while the
# chain is proved. The run over the chain gives each proof the idle processors; of the crates of tests it has the one
# that takes longest, which the other would begin last. The toolchain keeps what this run proves, and the other run uses
# it. It writes FOLDER/chain.log. If nothing can be kept, or the toolchain takes no names of crates, it ends at once or
# in vain, and `rt ci` proves all itself.
set -uo pipefail
[ $# -eq 1 ] || { sed -n '2s/^# //p' "$0" >&2; exit 2; }
folder=$1
cd "$(dirname "$0")/.." || exit 2
log=$folder/chain.log
: >"$log"

chain() {
  mkdir "$folder/chain" || return
  tar --exclude=out --exclude=must-fail --exclude=wrong -cf - crates crates.txt HANDLES | tar -xf - -C "$folder/chain" || return
  cd "$folder/chain" && env -u RT_JOBS rt ci gl_crew test_threads >"$log" 2>&1
}

chain &
chained=$!
# By then it has begun the chain. The other run waits for each crate of the chain, and checks once a second whether it
# is there: by then the next one is begun. Meanwhile it proves all others.
sleep 5
export RT_JOBS=${RT_JOBS:-$(tools/library.sh proof_jobs)}
nice -n 5 rt ci
status=$?
wait "$chained"
exit "$status"
