#!/usr/bin/env bash
# package.sh [--help] [OUT]: packs the library for C as it is built, into the folder OUT, by default out/ of the
# repository: burlapslate-VERSION-linux-x86_64.tar.gz, which may be unpacked anywhere, and two Debian packages of the
# same, libburlapslate0 with the shared library and libburlapslate-dev with the rest: headers, archive, documents,
# examples, the programs gltool and glpicture, the crate for Rust and the module for Python. Each has a file PROOF, which
# says what was seen of the proof. Prints the path of each package. If the library or a program is missing or old, it is
# built first. Fails if the last test run (./check) was of other sources, or has not seen each crate of the library
# proved. Without dpkg-deb it makes the archive alone, says so, and ends with status 77. SOURCE_DATE_EPOCH is the time
# that the files bear, by default that of the last commit.
set -uo pipefail
top=$(cd "$(dirname "$0")/.." && pwd) || exit 2
if [ "${1:-}" = --help ]; then
  sed -n '2,10s/^# //p' "$0"
  exit
fi
[[ $# -le 1 && ${1:-} != -* ]] || { sed -n '2,10s/^# //p' "$0" >&2; exit 2; }
out=${1:-$top/out}
mkdir -p "$out" && out=$(cd "$out" && pwd) || exit 1
work=$(mktemp -d) || exit 2
trap 'rm -rf "$work"' EXIT
export SOURCE_DATE_EPOCH=${SOURCE_DATE_EPOCH:-$(git -C "$top" log -1 --format=%ct 2>/dev/null || date +%s)}
umask 022

# The library's crates in this repository, and the file with the last test run's verdicts on them.
mapfile -t crates < <(sed -n 's/^gl_c staticlib: *//p' "$top/crates.txt" | tr ' ' '\n' |
  while read -r crate; do [ ! -d "$top/crates/$crate" ] || echo "$crate"; done)
crates+=(gl_c)
kept=$top/crates/gl_c/out/verdicts

# said_of_building SUM: whether the library is known to be compiled from the crates of this sum.
said_of_building() {
  local library=$top/crates/gl_c/out/libgl_c.a
  local noted
  noted="crates $1 library $(sha256sum <"$library" | cut -d ' ' -f 1)"
  if [ "$(cat "${library%/*}/built_from" 2>/dev/null)" = "$noted" ]; then
    echo "When the library was compiled, the sum of the crates was this one."
  else
    echo "No such sum was noted when the library was compiled, or another. What was seen is that by its date no"
    echo "source of Rattle in the crates of the library is newer than the library."
  fi
}

# said_of_verdicts SUM TOOLCHAIN: each crate, if the test run of these sources has seen it proved; fails if it has not.
said_of_verdicts() {
  local crate
  if [ "$(sed -n '1,2p' "$kept" 2>/dev/null)" != "crates $1"$'\n'"toolchain $2" ]; then
    echo "package.sh: no test run of these crates by this toolchain has left its verdicts here: run ./check first" >&2
    return 1
  fi
  echo "In the last test run (./check) all proofs and the tests in Rattle passed; what those of C and Rust said is not"
  echo "noted. It proved each of these crates by this toolchain, or an earlier run on the same machine had proved the same"
  echo "files over the same libraries:"
  echo
  for crate in "${crates[@]}"; do
    if ! grep -qx "proved $crate" "$kept"; then
      echo "package.sh: the last test run has not seen $crate proved: run ./check again" >&2
      return 1
    fi
    echo "$crate"
  done
}

# proof FOLDER: what was seen of the proof of the library that is installed in the folder.
proof() {
  local sum included written toolchain logic verdicts
  sum=$("$top/tools/library.sh" sum_of crates) && included=$("$top/tools/library.sh" sum_of include) &&
    written=$("$top/tools/library.sh" sum_of c) || return
  toolchain=$(rt version) && verdicts=$(said_of_verdicts "$sum" "$toolchain") || return
  logic=$(readelf -p .comment "$1/lib/libburlapslate.a" | sed -n 's/.*rattle logic=//p') || return
  cat <<END_OF_FILE
What was seen of the proof of Burlapslate $version when it was packed. All sums are by sha256.

Toolchain: $toolchain
Crates:    $sum
Headers:   $included
In C:      $written
Archive:   $(sha256sum <"$1/lib/libburlapslate.a" | cut -d ' ' -f 1)
Shared:    $(sha256sum <"$1/lib/libburlapslate.so" | cut -d ' ' -f 1)

The sums of crates, of headers and of what is written in C are those of the folders crates, include and c, as
tools/library.sh prints them. What is written in C, the shared table with its dump and its times, is compiled by ${CC:-cc},
and is not proved.
$(said_of_building "$sum")

The toolchain compiles a library only where it is proved, and writes into it by which logic. The archive names
${logic:-none}

$verdicts

What is proved and what is trusted stands in README.md.
END_OF_FILE
}

# papers FOLDER: copies the documents, the examples in C and the example scripts, without the scripts that run them only
# in the repository.
papers() {
  mkdir -p "$1" && cp "$top"/{README,CHANGELOG,CONTRIBUTING}.md "$work/PROOF" "$1/" && cp -r "$top/docs" "$1/" || return
  (cd "$top" && tar --exclude=out --exclude=run.sh -cf - examples) | tar -C "$1" -xf -
}

# others PREFIX: copies the programs, the crate for Rust and the module for Python.
others() {
  local share=$1/share/burlapslate parts=$1/libexec/burlapslate
  mkdir -p "$1/bin" "$parts" "$share/rust/burlapslate" "$share/python/burlapslate" &&
    cp "$top/crates/gltool/out/gltool" "$top/glpicture" "$1/bin/" &&
    cp "$top/crates/glpicture/out/glpicture" "$top/tools/timeline.py" "$parts/" || return
  (cd "$top/rust/burlapslate" && tar --exclude=target --exclude=tests -cf - .) | tar -C "$share/rust/burlapslate" -xf - &&
    cp "$top"/python/burlapslate/*.py "$share/python/burlapslate/"
}

# pack_archive: makes the archive of what is below $work/$name. The file for pkg-config finds its folder by itself.
pack_archive() {
  # shellcheck disable=SC2016 # pkg-config reads the dollar.
  sed -i 's,^prefix=.*,prefix=${pcfiledir}/../..,' "$work/$name/lib/pkgconfig/burlapslate.pc" &&
    papers "$work/$name" && others "$work/$name" &&
    tar -C "$work" --sort=name --owner=0 --group=0 --numeric-owner --mtime="@$SOURCE_DATE_EPOCH" --mode=u=rwX,go=rX \
      -cf - "$name" | gzip -n >"$out/$name.tar.gz" && echo "$out/$name.tar.gz"
}

# debian NAME CONTROL: makes the Debian package of what is below $work/NAME.
debian() {
  local size libc
  size=$(du -sk "$work/$1" | cut -f 1)
  # The newest version of the C library that the shared library needs.
  libc=$(objdump -T "$work/$name/lib/libburlapslate.so" | sed -n 's/.*[( ]GLIBC_\([0-9.]*\).*/\1/p' | sort -V | tail -n 1)
  mkdir -p "$work/$1/DEBIAN" && chmod -R u=rwX,go=rX "$work/$1" || return
  sed "s,@VERSION@,$version,; s,@MAJOR@,$major,; s,@SIZE@,$size,; s,@LIBC@,${libc:?}," \
    "$top/packaging/$2.control.in" >"$work/$1/DEBIAN/control" || return
  if ! dpkg-deb --root-owner-group --build "$work/$1" "$out/$1_${version}_amd64.deb" >"$work/log" 2>&1; then
    cat "$work/log" >&2
    return 1
  fi
  echo "$out/$1_${version}_amd64.deb"
}

# pack_debian: makes both Debian packages.
pack_debian() {
  local dev=$work/libburlapslate-dev/usr shared=$work/libburlapslate$major libdir=lib/x86_64-linux-gnu
  DESTDIR=$work/libburlapslate-dev LIBDIR=$libdir "$top/tools/install.sh" --shared /usr || return
  mkdir -p "$shared/usr/$libdir" "$shared/usr/share/doc/libburlapslate$major" "$shared/DEBIAN" &&
    mv "$dev/$libdir"/libburlapslate.so.* "$shared/usr/$libdir/" &&
    cmp "$shared/usr/$libdir/libburlapslate.so.$major" "$work/$name/lib/libburlapslate.so" &&
    cmp "$dev/$libdir/libburlapslate.a" "$work/$name/lib/libburlapslate.a" &&
    cp "$work/PROOF" "$shared/usr/share/doc/libburlapslate$major/" &&
    papers "$dev/share/doc/libburlapslate-dev" && others "$dev" || return
  # While the major number is 0, programs of another minor number must not run with it.
  echo "libburlapslate $major libburlapslate$major (>= $fits), libburlapslate$major (<< $other)" >"$shared/DEBIAN/shlibs"
  echo "activate-noawait ldconfig" >"$shared/DEBIAN/triggers"
  debian "libburlapslate$major" libburlapslate && debian libburlapslate-dev libburlapslate-dev
}

[ "$(uname -sm)" = "Linux x86_64" ] || { echo "package.sh: it packs for Linux on x86_64 alone" >&2; exit 2; }
"$top/tools/install.sh" --shared "$work/there" && "$top/tools/build.sh" gltool && "$top/tools/build.sh" glpicture || exit 1
version=$(sed -n 's/^Version: //p' "$work/there/lib/pkgconfig/burlapslate.pc")
IFS=. read -r major minor _ <<<"$version"
fits=$major.$minor other=$major.$((minor + 1))
[ "$major" -eq 0 ] || other=$((major + 1))
name=burlapslate-$version-linux-x86_64
mv "$work/there" "$work/$name" && proof "$work/$name" >"$work/PROOF" && pack_archive || exit 1
if ! command -v dpkg-deb >/dev/null; then
  echo "package.sh: the Debian packages are not made: dpkg-deb is not found" >&2
  exit 77
fi
pack_debian
