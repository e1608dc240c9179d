#!/usr/bin/env bash
# races.sh [TOOL..]: runs the stories of a shared table, its asks, its waits and their times, and a small crowd under tools
# that look for races: `tsan` (ThreadSanitizer, which sees what is compiled here: the table and the programs), `helgrind`
# and `drd` (valgrind's, which see the library too); all three if none is named. The first of them runs traces too, whose
# atomic words the others do not know. `short` means all but the crowd, under the first of them that is found, which takes
# seconds; if none is found, it ends with status 77, not tried. races.supp says what is no race. Prints a line for each
# run. Ends with status 1 if one reports anything or a program fails; a tool that is not found is skipped. RACES_LIBS names
# other archives than those of tools/c_library.sh, separated by a space. CC names another compiler.
set -uo pipefail
top=$(cd "$(dirname "$0")/../.." && pwd) || exit 2
work=$(mktemp -d) || exit 2
trap 'rm -rf "$work"' EXIT
read -r -a libraries <<<"${RACES_LIBS:-$("$top/tools/c_library.sh" | tr '\n' ' ')}"
[ "${#libraries[@]}" -eq 3 ] || exit 1
[ $# -gt 0 ] || set -- tsan helgrind drd

# compile TO PROGRAM WORD..: from the source of its name in this folder.
compile() {
  local with=("${@:3}") compiler=${CC:-cc}
  [ "$2" = running ] || with+=("$top/c/burlapslate_running.c")
  [ "$2" = traces ] || with+=("$top/c/burlapslate_trace.c")
  [[ ( $2 != group* || $2 == group_replay ) && $2 != parts ]] || with+=("$top/c/burlapslate_shared.c")
  [[ $2 == group* ]] || with+=("$top/c/burlapslate_group.c")
  [ "$2" != parts ] || with+=("$top/c/burlapslate_dump.c")
  # shellcheck disable=SC2054 # The commas are of one word.
  [ "$2" = crowd ] || with+=(-Wl,--wrap=malloc,--wrap=realloc,--wrap=free)
  # shellcheck disable=SC2086 # CC may have words after the name.
  $compiler -std=c99 -D_POSIX_C_SOURCE=200809L -pthread -Wall -Wextra -g -O1 -I"$top/include" -o "$work/$1" \
    -I"$top/c" "$top/tests/c/$2.c" "${libraries[@]:1}" "${with[@]}"
}

# quiet NAME COMMAND WORD..: whether the command ends with status 0; the tools end with 66 if they report anything.
quiet() {
  local status=0
  timeout 1800 "${@:2}" >"$work/said" 2>&1 || status=$?
  if [ "$status" -ne 0 ]; then
    echo "$1: status $status" >&2
    head -n 200 "$work/said" >&2
    return 1
  fi
  echo "$1: nothing to report"
}

# A board that a watcher has read is freed by the thread that shows the next: in an order of the library's atomic
# words, which ThreadSanitizer does not see.
printf 'race:^gl_window::\nrace:^bs_call_look$\n' >"$work/seen"
export TSAN_OPTIONS="exitcode=66 suppressions=$work/seen"

status=0
for tool in "$@"; do
  watched=(valgrind "--tool=$tool" -q --fair-sched=yes "--suppressions=$top/tests/c/races.supp" --error-exitcode=66)
  case $tool in
    short)
      if compile shared-tsan shared -fsanitize=thread 2>/dev/null; then
        quiet "tsan, the stories" "$work/shared-tsan" 60 256 || status=1
        compile asks-tsan asks -fsanitize=thread && compile begins-tsan begins -fsanitize=thread || exit 1
        quiet "tsan, the asks" "$work/asks-tsan" 60 60 || status=1
        quiet "tsan, asked begins" "$work/begins-tsan" 60 60 || status=1
        compile waits-tsan waits -fsanitize=thread && compile own_ends-tsan own_ends -fsanitize=thread &&
          compile row_paths-tsan row_paths -fsanitize=thread && compile running-tsan running -fsanitize=thread && compile traces-tsan traces -fsanitize=thread || exit 1
        quiet "tsan, the waits" "$work/waits-tsan" 60 || status=1
        quiet "tsan, own ends" "$work/own_ends-tsan" 60 || status=1
        quiet "tsan, rows and their paths" "$work/row_paths-tsan" 60 || status=1
        quiet "tsan, times" "$work/running-tsan" 60 || status=1
        quiet "tsan, traces" "$work/traces-tsan" 60 || status=1
        compile groups-tsan groups -fsanitize=thread && compile group_asks-tsan group_asks -fsanitize=thread &&
          compile parts-tsan parts -fsanitize=thread || exit 1
        quiet "tsan, a group" "$work/groups-tsan" || status=1
        quiet "tsan, the asks of a group" "$work/group_asks-tsan" || status=1
        quiet "tsan, a table with parts" "$work/parts-tsan" || status=1
      elif command -v valgrind >/dev/null; then
        compile shared shared && compile asks asks && compile begins begins && compile waits waits &&
          compile own_ends own_ends && compile row_paths row_paths && compile running running || exit 1
        watched[1]=--tool=helgrind
        quiet "helgrind, the stories" "${watched[@]}" "$work/shared" 300 256 || status=1
        quiet "helgrind, the asks" "${watched[@]}" "$work/asks" 300 20 || status=1
        quiet "helgrind, asked begins" "${watched[@]}" "$work/begins" 300 20 || status=1
        quiet "helgrind, the waits" "${watched[@]}" "$work/waits" 300 || status=1
        quiet "helgrind, own ends" "${watched[@]}" "$work/own_ends" 300 || status=1
        quiet "helgrind, rows and their paths" "${watched[@]}" "$work/row_paths" 300 || status=1
        quiet "helgrind, times" "${watched[@]}" "$work/running" 300 || status=1
      else
        echo "races.sh: not tried: neither ThreadSanitizer nor valgrind is found"
        exit 77
      fi
      ;;
    tsan)
      if ! compile shared-tsan shared -fsanitize=thread || ! compile asks-tsan asks -fsanitize=thread ||
        ! compile begins-tsan begins -fsanitize=thread || ! compile waits-tsan waits -fsanitize=thread ||
        ! compile own_ends-tsan own_ends -fsanitize=thread || ! compile row_paths-tsan row_paths -fsanitize=thread ||
        ! compile running-tsan running -fsanitize=thread ||
        ! compile traces-tsan traces -fsanitize=thread || ! compile groups-tsan groups -fsanitize=thread ||
        ! compile group_asks-tsan group_asks -fsanitize=thread || ! compile parts-tsan parts -fsanitize=thread ||
        ! compile group_replay-tsan group_replay -fsanitize=thread || ! compile crowd-tsan crowd -fsanitize=thread; then
        echo "tsan: this compiler has none, so nothing was tried"
        continue
      fi
      quiet "tsan, the stories" "$work/shared-tsan" 300 || status=1
      quiet "tsan, the asks" "$work/asks-tsan" 300 || status=1
      quiet "tsan, asked begins" "$work/begins-tsan" 300 || status=1
      quiet "tsan, the waits" "$work/waits-tsan" 300 || status=1
      quiet "tsan, own ends" "$work/own_ends-tsan" 300 || status=1
      quiet "tsan, rows and their paths" "$work/row_paths-tsan" 300 || status=1
      quiet "tsan, times" "$work/running-tsan" 300 || status=1
      quiet "tsan, traces" "$work/traces-tsan" 300 || status=1
      quiet "tsan, a group" "$work/groups-tsan" || status=1
      quiet "tsan, the asks of a group" "$work/group_asks-tsan" || status=1
      quiet "tsan, a table with parts" "$work/parts-tsan" || status=1
      quiet "tsan, a crowd in a group" "$work/groups-tsan" 20 || status=1
      quiet "tsan, a crowd in a group, replayed" "$work/group_replay-tsan" 4 300 || status=1
      quiet "tsan, the crowd" "$work/crowd-tsan" 4 300 || status=1
      ;;
    helgrind | drd)
      if ! command -v valgrind >/dev/null; then
        echo "$tool: valgrind is not found, so nothing was tried"
        continue
      fi
      compile shared shared && compile asks asks && compile begins begins && compile waits waits &&
        compile own_ends own_ends && compile row_paths row_paths && compile running running && compile crowd crowd &&
        compile groups groups && compile group_asks group_asks || exit 1
      quiet "$tool, the stories" "${watched[@]}" "$work/shared" 900 256 || status=1
      quiet "$tool, the asks" "${watched[@]}" "$work/asks" 900 20 || status=1
      quiet "$tool, asked begins" "${watched[@]}" "$work/begins" 900 20 || status=1
      quiet "$tool, the waits" "${watched[@]}" "$work/waits" 900 || status=1
      quiet "$tool, own ends" "${watched[@]}" "$work/own_ends" 900 || status=1
      quiet "$tool, rows and their paths" "${watched[@]}" "$work/row_paths" 900 || status=1
      quiet "$tool, times" "${watched[@]}" "$work/running" 900 || status=1
      quiet "$tool, a group" "${watched[@]}" "$work/groups" || status=1
      quiet "$tool, the asks of a group" "${watched[@]}" "$work/group_asks" || status=1
      quiet "$tool, the crowd" "${watched[@]}" "$work/crowd" 1 900 || status=1
      ;;
    *)
      echo "races.sh: no tool $tool" >&2
      exit 2
      ;;
  esac
done
exit "$status"
