#!/usr/bin/env bash
# install.sh [--shared] [--slots N] PREFIX: installs the library for C below a folder: PREFIX/include has the headers,
# PREFIX/lib one archive with all that a program is linked with, and what `pkg-config --cflags --libs burlapslate` and
# `find_package(burlapslate)` of CMake read; PREFIX/share/burlapslate has the suppressions for race detectors.
# With --shared it installs the shared library beside the archive, and a linker then prefers it. N is how many
# transactions can live at once: 128, or 1024. If the library is missing or old, it is built first
# (tools/c_library.sh). DESTDIR is put before PREFIX for the copies, but does not appear in them; LIBDIR names another
# folder below PREFIX than lib. AR, LD, OBJCOPY and CC name other tools than ar, ld, objcopy and cc.
set -uo pipefail
top=$(cd "$(dirname "$0")/.." && pwd) || exit 2

says() {
  sed -n '2,8s/^# //p' "$0"
}
usage() {
  says >&2
  exit 2
}

shared='' slots=128 prefix=
while [ $# -gt 0 ]; do
  case $1 in
    --shared) shared=yes ;;
    --slots)
      [ $# -ge 2 ] || usage
      slots=$2 && shift
      ;;
    --help)
      says
      exit
      ;;
    '' | -*) usage ;;
    *)
      [ -z "$prefix" ] || usage
      prefix=$1
      ;;
  esac
  shift
done
[ -n "$prefix" ] || usage
headers=$("$top/tools/c_library.sh" --headers --slots "$slots") || exit 2
work=$(mktemp -d) || exit 2
trap 'rm -rf "$work"' EXIT

if ! "$top/tools/c_library.sh" --look --slots "$slots" 2>"$work/log" && [ ! -s "$work/log" ]; then
  echo "install.sh: the library is proved first: about half an hour on four processors, where nothing is proved yet" >&2
fi
mapfile -t libraries < <("$top/tools/c_library.sh" --slots "$slots" 2>"$work/log")
[ "${#libraries[@]}" -eq 3 ] || { cat "$work/log" >&2; exit 1; }

# number NAME: the number that the header defines under this name.
number() {
  sed -n "s/^#define BS_VERSION_$1 //p" "$top/include/burlapslate.h"
}
major=$(number MAJOR) minor=$(number MINOR)
version=$major.$minor.$(number PATCH)
soname=libburlapslate.so.$major
# While the major number is 0, the minor number decides whether a program fits.
node=BURLAPSLATE_$major
[ "$major" -gt 0 ] || node+=.$minor
[ "$slots" = 128 ] || node+=_SLOTS_$slots
libdir=${LIBDIR:-lib}

if [ -z "${DESTDIR:-}" ]; then
  mkdir -p "$prefix" && prefix=$(cd "$prefix" && pwd) || exit 1
elif [ "${prefix#/}" = "$prefix" ]; then
  echo "install.sh: with DESTDIR, PREFIX is to begin with /" >&2
  exit 2
fi
to=${DESTDIR:-}$prefix
# (escaped for sed's replacement)
said=$(printf '%s' "$prefix" | sed 's/[&,\\]/\\&/g')

# fill NAME FOLDER: writes the template of this name in packaging/ to the folder, filled in.
fill() {
  local up
  up=$(realpath -sm --relative-to="/$libdir" /) || return
  mkdir -p "$2" && sed -e "s,@PREFIX@,$said,g; s,@LIBDIR@,$libdir,g; s,@UP@,$up,g; s,@VERSION@,$version,g" \
    -e "s,@MAJOR@,$major,g; s,@MINOR@,$minor,g; s,@SONAME@,$soname,g; s,@NODE@,$node,g" \
    "$top/packaging/$1.in" >"$2/$1"
}

# join: makes one object of the part written in C, the proved library and the toolchain's allocation functions. Only the
# names of C are global in it, so that a program can use another library of this toolchain too.
join() {
  ${LD:-ld} -r -o "$work/joined.o" --whole-archive "${libraries[@]}" &&
    ${OBJCOPY:-objcopy} --wildcard --keep-global-symbol='bs_*' --remove-section=.llvm_addrsig \
      "$work/joined.o" "$work/burlapslate.o"
}

# archive, share: write the archive and the shared library.
archive() {
  (cd "$work" && ${AR:-ar} rcsD libburlapslate.a burlapslate.o) && cp "$work/libburlapslate.a" "$to/$libdir/"
}
share() {
  fill burlapslate.map "$work" &&
    ${CC:-cc} -shared -Wl,-soname,"$soname" -Wl,--version-script="$work/burlapslate.map" -Wl,-z,defs -Wl,-z,text \
      -o "$work/shared.so" "$work/burlapslate.o" &&
    cp "$work/shared.so" "$to/$libdir/libburlapslate.so.$version" &&
    ln -sf "libburlapslate.so.$version" "$to/$libdir/$soname" && ln -sf "$soname" "$to/$libdir/libburlapslate.so"
}

mkdir -p "$to/include" "$to/$libdir" "$to/share/burlapslate" || exit 1
cp "$headers"/*.h "$to/include/" && cp "$top/tests/c/races.supp" "$to/share/burlapslate/" || exit 1
join && archive || exit 1
if [ "$shared" ]; then
  share || exit 1
elif [ -e "$to/$libdir/libburlapslate.so" ]; then
  echo "install.sh: a shared library of an earlier installation stands in $to/$libdir: a linker takes it first" >&2
fi
fill burlapslate.pc "$to/$libdir/pkgconfig" || exit 1
fill burlapslateConfig.cmake "$to/$libdir/cmake/burlapslate" || exit 1
fill burlapslateConfigVersion.cmake "$to/$libdir/cmake/burlapslate" || exit 1
