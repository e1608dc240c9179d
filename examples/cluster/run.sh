#!/usr/bin/env bash
# run.sh: looks whether each piece of C that docs/CLUSTERS.md shows stands here; compiles the shards, their coordinator
# and the checker of histories over the C library, and runs them: once with the log of decisions in a file and nobody
# killed, and once with it in three members of etcd, where shards are killed at random and started again. Before that
# the checker must refuse histories that are wrong. Ends with status 1 where something is not as wanted. Where there is
# no etcd, or no etcdctl, shards are killed with the log in a file; it says that etcd was not tried, and ends with
# status 77, as it does where there is no C compiler. All that it makes is in a temporary folder, and it ends what it
# has started. SEED chooses the crowd and the kills, which are else at random; CC names another compiler than cc.
set -uo pipefail
here=$(cd "$(dirname "$0")" && pwd) || exit 2
top=$here/../..
(cd "$top" && tools/pieces.sh docs/CLUSTERS.md examples/cluster/*.[ch]) || exit 1

compiler=${CC:-cc}
if ! command -v "${compiler%% *}" >/dev/null; then
  echo "examples/cluster: not tried: there is no C compiler $compiler"
  exit 77
fi
seed=${SEED:-$RANDOM}
RANDOM=$seed

work=$(mktemp -d) || exit 2
keepers=() members=() coordinator=

# stop_members: their data is thrown away, so they need not end well.
stop_members() {
  local pid
  [ "${#members[@]}" -eq 0 ] || kill -9 "${members[@]}" 2>/dev/null
  for pid in "${members[@]}"; do timeout 5 tail --pid="$pid" -f /dev/null; done
  members=()
}

stop_all() {
  local pid
  for pid in ${coordinator:+"$coordinator"} "${keepers[@]}"; do kill "$pid" 2>/dev/null; done
  stop_members
  wait 2>/dev/null
  rm -rf "$work"
}
trap stop_all EXIT
trap 'exit 1' INT TERM

# wrong WHAT: says so with what was printed, and ends the run.
wrong() {
  echo "examples/cluster: seed $seed: $1" >&2
  [ ! -e said ] || cat said >&2
  exit 1
}

# ----------------------------------------------------------------------------------------------------------------------
# What is run.

# compile PROGRAM SOURCE..
compile() {
  # shellcheck disable=SC2086 # CC may have words behind the name.
  $compiler -std=c11 -D_DEFAULT_SOURCE -pthread -Wall -Wextra -Werror -O1 -I"$top/include" -o "$work/$1" \
    "${@:2}" "${libraries[@]}" || exit 1
}

mapfile -t libraries < <("$top/tools/c_library.sh" 2>"$work/log")
[ "${#libraries[@]}" -eq 3 ] || { cat "$work/log" >&2; exit 1; }
cd "$here" || exit 2
compile shard shard.c store.c redo.c decide.c wire.c fail.c
compile coordinator coordinator.c stories.c phantom.c crowd.c remote.c gather.c decide.c wire.c fail.c
compile history history.c redo.c fail.c

# refuses WORD LINES0 LINES1 ACKNOWLEDGED: the checker must refuse a history of two shards with this word.
refuses() {
  local name=${1// /-}
  mkdir "$work/$name" && cd "$work/$name" || exit 2
  printf '%b' "$2" >shard-0.log
  printf '%b' "$3" >shard-1.log
  printf '%b' "$4" >acknowledged
  touch shard-2.log balances
  echo "1 commit" >decided
  "$work/history" >said 2>&1
  [ $? -eq 1 ] || wrong "the checker passes a history that is wrong: $1"
  grep -q "$1" said || wrong "the checker refuses for another reason than: $1"
}

refuses "split" 'P 1 0:0:90\nC 1\n' 'P 1 4:0:110\nA 1\n' ''
refuses "in doubt" 'P 1 0:0:90\nC 1\n' 'P 1 4:0:110\n' ''
refuses "undecided" 'O 1 0:0\nP 2 0:0:90\nC 2\n' 'P 2 4:0:110\nC 2\n' ''
refuses "was acknowledged" 'P 1 0:0:90\nC 1\n' '' '1 2\n'
refuses "lost update" 'O 1 0:0:90 1:0:110\nO 2 0:0:80 2:0:120\n' '' ''
refuses "a gap" 'O 1 0:1:90 1:0:110\n' '' ''
refuses "of money" 'O 1 0:0:90 1:0:120\n' '' ''
refuses "a cycle" 'O 1 0:0 1:0:90 2:0:110\nO 2 1:0 0:0:90 3:0:110\n' '' ''
echo "the checker refuses eight histories that are wrong"

# ----------------------------------------------------------------------------------------------------------------------
# Shards, and a run of them.

# keep SHARD DECISIONS: runs a shard in a session of its own, and starts it again where it was killed. Where the keeper
# is ended it ends the shard, with what that has started.
keep() {
  local status=137
  trap 'for pid in $(jobs -p); do kill -9 -- "$pid" "-$pid" 2>/dev/null; done; wait 2>/dev/null; exit 1' TERM
  while [ "$status" -eq 137 ]; do
    setsid "$work/shard" "$1" "$2" >>said 2>&1 &
    echo $! >"shard-$1.pid"
    wait $! 2>/dev/null
    status=$?
  done
  exit "$status"
}

# kill_some: kills shards at random moments of the crowd.
kill_some() {
  local shard
  until grep -q "the crowd begins" said || ! kill -0 "$coordinator" 2>/dev/null; do sleep 0.02; done
  for _ in 1 2; do
    sleep "0.$((RANDOM % 400 + 100))"
    shard=$((RANDOM % 3))
    kill -0 "$coordinator" 2>/dev/null || return
    kill -9 "$(<"shard-$shard.pid")" && echo "shard $shard was killed in the crowd" >>said
  done
  kill_member
}

# kill_member: kills one member of etcd where there are three; two are enough.
kill_member() {
  local which=$((RANDOM % 3))
  [ "${#members[@]}" -eq 3 ] && kill -0 "$coordinator" 2>/dev/null || return
  kill -9 "${members[which]}" && echo "member $which of etcd was killed in the crowd" >>said
  unset "members[which]"
}

# play NAME DECISIONS [--kills]: runs shards and coordinator in a folder of their own, and has the shards end well.
play() {
  local shard pid status
  mkdir "$work/$1" && cd "$work/$1" || exit 2
  touch said
  for shard in 0 1 2; do
    keep "$shard" "$2" &
    keepers+=($!)
  done
  timeout 60 "$work/coordinator" "${@:2:1}" "$seed" "${@:3}" >>said 2>&1 &
  coordinator=$!
  [ $# -lt 3 ] || kill_some
  wait "$coordinator"
  status=$?
  coordinator=
  [ "$status" -eq 0 ] || wrong "the coordinator ended with status $status"
  for pid in "${keepers[@]}"; do wait "$pid" || wrong "a shard did not end well"; done
  keepers=()
  cat said
}

# checked: the history of the run in this folder.
checked() {
  "$work/history" >said 2>&1 || wrong "the history is wrong"
  cat said
}

echo "in peace, decisions in a file, seed $seed"
play peace file:decided
checked

if ! command -v etcd >/dev/null || ! command -v etcdctl >/dev/null; then
  echo "with shards killed, decisions in a file"
  play killed file:decided --kills
  checked
  echo "examples/cluster: not tried with decisions in etcd: there is no etcd, or no etcdctl"
  exit 77
fi

# ----------------------------------------------------------------------------------------------------------------------
# Three members of etcd on the loopback.

# find_ports COUNT: ports of the loopback at which nobody listens.
find_ports() {
  local port
  ports=()
  while [ "${#ports[@]}" -lt "$1" ]; do
    port=$((20000 + (RANDOM * 32768 + RANDOM) % 12000))
    [[ " ${ports[*]} " == *" $port "* ]] && continue
    (exec 3<>"/dev/tcp/127.0.0.1/$port") 2>/dev/null || ports+=("$port")
  done
}

start_members() {
  local i at=http://127.0.0.1 all=
  find_ports 6
  for i in 0 1 2; do all+=${all:+,}m$i=$at:${ports[i + 3]}; done
  endpoints=$at:${ports[0]},$at:${ports[1]},$at:${ports[2]}
  for i in 0 1 2; do
    rm -rf "etcd-$i"
    etcd --name "m$i" --data-dir "etcd-$i" --initial-cluster "$all" --initial-cluster-state new --log-level error \
      --listen-client-urls "$at:${ports[i]}" --advertise-client-urls "$at:${ports[i]}" \
      --listen-peer-urls "$at:${ports[i + 3]}" --initial-advertise-peer-urls "$at:${ports[i + 3]}" \
      >>etcd.said 2>&1 &
    members+=($!)
    disown $! # Else its end is announced.
  done
}

# are_healthy: waits until all members answer. Not so where one has ended, as where its port was taken meanwhile.
are_healthy() {
  local pid
  for _ in {1..100}; do
    for pid in "${members[@]}"; do kill -0 "$pid" 2>/dev/null || return 1; done
    ETCDCTL_API=3 etcdctl --endpoints="$endpoints" --command-timeout=1s endpoint health >/dev/null 2>&1 && return
    sleep 0.1
  done
  return 1
}

cd "$work" || exit 2
for try in 1 2 3; do
  start_members
  are_healthy && break
  stop_members
  [ "$try" -lt 3 ] || { cat etcd.said >&2; wrong "etcd does not start"; }
done

echo "with shards killed, decisions in etcd"
play etcd "etcd:$endpoints" --kills
ETCDCTL_API=3 etcdctl --endpoints="$endpoints" get --prefix decision/ >keys || wrong "etcd does not answer"
paste -d ' ' - - <keys | sed 's,^decision/,,' >decided
checked
