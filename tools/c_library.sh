#!/usr/bin/env bash
# c_library.sh [--look | --headers | --beside LOG] [--slots N]: builds the library for C if it is missing or older than
# its sources, and prints what a program over include/burlapslate.h is linked with: the part written in C (c/), the
# proved library, and the toolchain's allocation functions. `rt` must be on the PATH. With --look it builds nothing, and
# ends with status 1 if there is something to prove. With --headers it builds nothing, and prints the folder that has the
# library's headers after it is built. N is how many transactions can live at once: 128, or 1024. The library for 1024
# is proved in out/slots-1024, over gl_wide_slots, and is left there with its headers. With --beside it runs during an
# `rt ci` that writes this log: it proves the library for 128 as soon as the crates that it depends on are proved, and
# puts it in its place after the log has a line 'rt ci ended with status N'. CC names another compiler than cc.
set -uo pipefail
top=$(cd "$(dirname "$0")/.." && pwd) || exit 2

says() {
  sed -n '2,10s/^# //p' "$0"
}
usage() {
  says >&2
  exit 2
}

asked='' slots=128 log=''
while [ $# -gt 0 ]; do
  case $1 in
    --help)
      says
      exit
      ;;
    --look | --headers) asked=$1 && shift ;;
    --beside)
      [ $# -ge 2 ] || usage
      log=$2 && shift 2
      ;;
    --slots)
      [ $# -ge 2 ] || usage
      slots=$2 && shift 2
      ;;
    *) usage ;;
  esac
done
case $slots in
  128) built=$top ;;
  1024) built=$top/out/slots-1024 ;;
  *)
    echo "c_library.sh: a library has 128 slots or 1024, and not $slots" >&2
    usage
    ;;
esac
[ "$asked" != --headers ] || { echo "$built/include"; exit; }
library=$built/crates/gl_c/out/libgl_c.a
written=$built/c/out/libburlapslate_c.a
rt=$(command -v rt) || { echo "c_library.sh: rt is not found" >&2; exit 2; }
kit=$(dirname "$(dirname "$(readlink -f "$rt")")")

# The crates that gl_c depends on, in this repository and of the toolchain.
read -r -a named < <(sed -n 's/^gl_c staticlib: *//p' "$top/crates.txt")
sources=("${named[@]}")
[ "$slots" = 128 ] || sources=("${named[@]/#gl_slots/gl_wide_slots}")

# is_newer FILE CRATE..: whether a source of one of these crates of the repository is newer than the file.
is_newer() {
  local crate
  for crate in "${@:2}"; do
    [ -d "$top/crates/$crate" ] || continue
    [ -z "$(find "$top/crates/$crate" -name out -prune -o \( -name '*.rt' -o -name '*.antt' \) -newer "$1" -print -quit)" ] || return 0
  done
  return 1
}

# build_in FOLDER LIBRARY WORD..: proves and builds gl_c from the sources in the folder, over the libraries that the
# words name. The options are those of `rt check`, so that nothing is proved again that `rt check` has kept.
build_in() {
  cd "$1" && mkdir -p out || return 1
  "$kit/bin/rattle" build --crate-name gl_c src/lib.rt --crate-type staticlib \
    --extern "std=$kit/rlibs/std.rlib" -L "dependency=$kit/rlibs" "${@:3}" \
    --antt-project "$kit/rattle/logic/antt-project.json" --logic-built "$kit/logic_built" \
    --links gl_c= --incremental out/incremental --toolchain "$kit/toolchain" --backend llvm --jobs 2 -o "$2"
}

# build_over_kept: as `rt lib`, over the proved libraries that `rt ci` has left, which `rt lib` would prove again; `rt
# ci` keeps none of gl_c.
build_over_kept() {
  local crate rlib with=()
  for crate in "${named[@]}"; do
    rlib=$kit/rlibs/$crate.rlib
    [ ! -d "$top/crates/$crate" ] || rlib=$top/crates/$crate/out/rlib/$crate.rlib
    [ -e "$rlib" ] && ! is_newer "$rlib" "$crate" || return 1
    with+=(--extern "$crate=$rlib" -L "dependency=${rlib%/*}")
  done
  build_in "$top/crates/gl_c" "$library" "${with[@]}"
}

# has_ended: whether the `rt ci` of the log has ended, and has restored what was in the place of its libraries; or the
# log is gone, as after a failed test run.
has_ended() {
  [ ! -e "$log" ] || grep -q '^rt ci ended with status ' "$log"
}

# build_beside FOLDER: the same during an `rt ci`, in the folder. Links keep the libraries there, since that run
# restores at its end what was in their place. Fails if a library is not made.
build_beside() {
  local crate rlib with=()
  cp -r "$top/crates/gl_c/"{src,specs,proofs} "$1" || return 1
  for crate in "${named[@]}"; do
    rlib=$kit/rlibs/$crate.rlib
    if [ -d "$top/crates/$crate" ]; then
      rlib=$1/$crate.rlib
      until grep -q "^rt: $crate \(proved$\|is kept: \)" "$log"; do
        ! has_ended || return 1
        sleep 2
      done
      cp -al "$top/crates/$crate/out/rlib/$crate.rlib" "$rlib" || return 1
    fi
    with+=(--extern "$crate=$rlib" -L "dependency=${rlib%/*}")
  done
  build_in "$1" "$1/libgl_c.a" "${with[@]}"
}

# put_beside: builds so if the library is old, and puts it in its place after that run has ended, which may have removed
# it. If the build fails, the library is built after that run, as usual.
put_beside() {
  local work
  if work=$(mktemp -d "$top/.git/library.XXXXXX") && (if is_old; then build_beside "$work"; else cp -p "$library" "$work"; fi); then
    until has_ended; do sleep 1; done
    mkdir -p "${library%/*}" && mv "$work/libgl_c.a" "$library"
  fi
  until has_ended; do sleep 1; done
  [ -z "$work" ] || rm -rf "$work"
}

# is_old: whether there is no library, or a source is newer than it.
is_old() {
  [ ! -e "$library" ] || is_newer "$library" gl_c "${sources[@]}"
}

# is_c_old: whether the part written in C is not compiled, or older than its sources and the headers.
is_c_old() {
  [ ! -e "$written" ] || [ -n "$(find "$top"/c/*.[ch] "$top"/include/*.h "$top/tools/c_library.sh" -newer "$written" -print -quit)" ]
}

# write_exports FOLDER: writes the functions that the headers define in place as a source of its own, burlapslate_exports.c,
# with headers in which they are not static: so the library exports each public call, for languages that read no header.
write_exports() {
  local header
  mkdir -p "$1/include" && printf '#include "burlapslate_%s.h"\n' parts session rows splits group >"$1/burlapslate_exports.c" || return
  for header in "$built"/include/*.h; do
    sed 's/^static inline //' "$header" >"$1/include/${header##*/}" || return
  done
}

# build_c: compiles the part written in C, so that it can be part of a shared library too. A malloc that is cleared must
# not become a calloc: the allocator is malloc, realloc and free. The archive is put in its place whole, since others
# may build it at the same time.
build_c() {
  local work source headers status=0
  work=$(mktemp -d) || return
  write_exports "$work" || status=1
  for source in "$top"/c/*.c "$work/burlapslate_exports.c"; do
    headers=$built/include
    [ "${source%/*}" != "$work" ] || headers=$work/include
    # shellcheck disable=SC2086 # CC may have words after the name.
    ${CC:-cc} -std=c99 -D_POSIX_C_SOURCE=200809L -pthread -O2 -fPIC -fno-builtin-malloc -Wall -Wextra -I"$headers" -c \
      -o "$work/$(basename "$source" .c).o" "$source" || status=1
  done
  [ "$status" -eq 0 ] && (cd "$work" && ${AR:-ar} rcsD archive.a ./*.o) && mkdir -p "${written%/*}" &&
    cp "$work/archive.a" "$written.$$" && mv "$written.$$" "$written" || status=1
  rm -rf "$work"
  return "$status"
}

# build_wide: builds the library for more slots, in a copy of the crates.
build_wide() {
  "$top/tools/library.sh" wide_sources "$built" && cd "$built/crates/gl_c" && rt lib
}

if [ "$asked" = --look ]; then
  ! is_old
  exit
fi
[ -z "$log" ] || put_beside >&2
if is_old || [ -n "$log" ]; then
  sum=$("$top/tools/library.sh" sum_of crates) || exit 1
  if ! is_old; then
    true # It is there by now.
  elif [ "$slots" = 128 ]; then
    (build_over_kept) >&2 || (cd "$top/crates/gl_c" && rt lib) >&2 || exit 1
  else
    (build_wide) >&2 || exit 1
  fi
  # The sums that tools/package.sh quotes.
  echo "crates $sum library $(sha256sum <"$library" | cut -d ' ' -f 1)" >"${library%/*}/built_from" || exit 1
fi
[ "$slots" = 128 ] || "$top/tools/library.sh" headers_for "$slots" "$built/include" || exit 1
if is_c_old; then
  build_c >&2 || exit 1
fi
printf '%s\n' "$written" "$library" "$kit/c/liblibc_c.a"
