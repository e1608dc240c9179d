#!/usr/bin/env bash
# package.sh: packs the library (tools/package.sh), unpacks the archive and the Debian packages, each into its own folder,
# and compiles programs with only what is there: the first program of README.md and answers.c, as C and as C++, with
# pkg-config and with CMake, with the shared library and with the archive; the small engine of the examples; and the crate
# for Rust; the programs and the module for Python run, and a second packing says the same of the proof. Checks the names that both libraries show, and looks for paths of this machine. Ends with status 1 if anything
# is not as expected; if a tool is missing it says what was not tried, tries all else, and ends with status 77. CC and CXX
# name other compilers than cc and c++.
set -uo pipefail
top=$(cd "$(dirname "$0")/../.." && pwd) || exit 2
work=$(mktemp -d) || exit 2
trap 'rm -rf "$work"' EXIT
unset BURLAPSLATE_LIBS BURLAPSLATE_DIR LD_LIBRARY_PATH PKG_CONFIG_PATH PKG_CONFIG_SYSROOT_DIR DESTDIR LIBDIR
export LC_ALL=C
status=0
name=packing
: >"$work/log"

# has WHAT TOOL: whether the tool exists; if not, says what was not tried.
has() {
  command -v "${2%% *}" >/dev/null && return
  echo "tests/c: the packages, $1: not tried: $2 is not found"
  status=77
  return 1
}

# fails WHAT: ends the test, with the log of what failed.
fails() {
  cat "$work/log" >&2
  echo "tests/c: the packages, $name: $1" >&2
  exit 1
}

# shows: the exported names are the project's. A version has a name too, of kind A.
shows() {
  nm -D --defined-only "$libdir/libburlapslate.so" >"$work/names" || fails "the shared library is not read"
  nm -g --defined-only "$libdir/libburlapslate.a" >>"$work/names" || fails "the archive is not read"
  awk 'NF == 3 && $2 != "A" && $3 !~ /^(bs|burlapslate)_/' "$work/names" >"$work/log"
  [ ! -s "$work/log" ] || fails "it shows other names"
  [ "$(grep -c ' T bs_call_lock' "$work/names")" -ge 2 ] || fails "it does not show its own names"
  readelf -d "$libdir/libburlapslate.so" >"$work/log"
  grep -qF "soname: [libburlapslate.so.0]" "$work/log" || fails "the shared library has another soname"
}

# refuses: the loader does not start a program that was linked with another second number.
refuses() {
  mkdir -p "$work/other" && echo 'BURLAPSLATE_0.0 { global: *; };' >"$work/other/map"
  echo 'int bs_call_len(void) { return 0; }' >"$work/other/library.c"
  echo 'int bs_call_len(void); int main(void) { return bs_call_len(); }' >"$work/other/program.c"
  # shellcheck disable=SC2086 # CC may have words after the name.
  ${CC:-cc} -shared -fPIC -Wl,-soname,libburlapslate.so.0 -Wl,--version-script="$work/other/map" \
    -o "$work/other/libburlapslate.so.0" "$work/other/library.c" 2>"$work/log" || fails "no other library is made"
  # shellcheck disable=SC2086 # The same.
  ${CC:-cc} -o "$work/other/program" "$work/other/program.c" "$work/other/libburlapslate.so.0" 2>"$work/log" ||
    fails "no program over another library is made"
  LD_LIBRARY_PATH=$work/other "$work/other/program" 2>"$work/log" || fails "a program does not start with its own library"
  if LD_LIBRARY_PATH=$libdir "$work/other/program" 2>"$work/log" || ! grep -q "version .BURLAPSLATE_0.0. not found" "$work/log"; then
    fails "a program of another version is not refused by the loader"
  fi
}

# holds: the suppressions are there, PROOF has the sums of these libraries, and no path of this machine is named.
holds() {
  local file kind
  [ -s "$prefix/share/burlapslate/races.supp" ] || fails "the suppressions are not there"
  file=$(find "$root" -name PROOF | head -n 1)
  for kind in Archive:a Shared:so; do
    grep -qx "${kind%:*}: *$(sha256sum <"$libdir/libburlapslate.${kind#*:}" | cut -d ' ' -f 1)" "${file:-/dev/null}" ||
      fails "PROOF speaks of another library"
  done
  ! grep -rF -e "$top" -e "$work" "$root" >"$work/log" || fails "it names a path of this machine"
}

# compiles HOW WORD..: compiles both programs by these words, each as C and as C++, and runs them. HOW is `shared` or
# `archive`.
compiles() {
  local program words=("${@:2}") cc cxx
  read -ra cc <<<"${CC:-cc} -std=c11 -Wall -Wextra -Werror"
  read -ra cxx <<<"${CXX:-c++} -Wall -Wextra -Werror"
  for program in first answers; do
    "${cc[@]}" -o "$work/c" "$work/away/$program.c" "${words[@]}" 2>"$work/log" || fails "$1: $program.c is not compiled"
    runs "$1" "$work/c"
    command -v "${cxx[0]}" >/dev/null || continue
    "${cxx[@]}" -o "$work/cxx" -x c++ "$work/away/$program.c" -x none "${words[@]}" 2>"$work/log" ||
      fails "$1: $program.c is not compiled as C++"
    runs "$1" "$work/cxx"
  done
}

# runs HOW PROGRAM: the program is linked in this way, and ends well.
runs() {
  local linked=archive
  ! readelf -d "$2" | grep -qF "[libburlapslate.so.0]" || linked=shared
  [ "$linked" = "$1" ] || fails "a program is linked with what is $linked, and not $1"
  LD_LIBRARY_PATH=$libdir timeout 60 "$2" >"$work/log" 2>&1 || fails "$1: a program ends with status $?"
}

# by_pkg_config WORD..: with these words for pkg-config.
by_pkg_config() {
  local said=() flags=()
  has "$name, by pkg-config" pkg-config || return 0
  export PKG_CONFIG_PATH=$libdir/pkgconfig
  read -ra said < <(pkg-config "$@" --cflags --libs burlapslate)
  read -ra flags < <(pkg-config "$@" --cflags burlapslate)
  compiles shared "${said[@]}"
  compiles archive "${flags[@]}" "$(pkg-config "$@" --variable=archive burlapslate)"
  unset PKG_CONFIG_PATH
  echo "the_package_by_pkg_config: $name"
}

by_cmake() {
  local program how
  has "$name, by CMake" cmake && has "$name, by CMake" make || return 0
  mkdir "$work/cmake.$name" || exit 1
  (cd "$work/cmake.$name" && cmake -G "Unix Makefiles" -DCMAKE_PREFIX_PATH="$prefix" "$work/away" &&
    cmake --build .) >"$work/log" 2>&1 || fails "CMake does not build with it"
  for program in first answers; do
    for how in shared archive; do
      runs "$how" "$work/cmake.$name/${program}_$how"
    done
  done
  echo "the_package_by_cmake: $name"
}

# by_cargo WORD..: a program with the crate for Rust is built and ends well, with these words in the environment.
by_cargo() {
  has "$name, by cargo" cargo || return 0
  (cd "$work/away/program" && timeout 300 env CARGO_TARGET_DIR="$work/cargo.$name" "$@" cargo run --offline --quiet) \
    >"$work/log" 2>&1 || fails "the crate for Rust does not build with it, or does not run"
  echo "the_package_by_cargo: $name, ${1%%=*}"
}

# others FOLDER: the programs run, with the example scripts of the folder; the crate for Rust is whole; the module for
# Python passes its tests; and the documents are there.
others() {
  local script
  for script in "$1"/examples/*.script; do
    "$prefix/bin/gltool" <"$script" 2>"$work/log" | cmp - "${script%.script}.expected" >>"$work/log" 2>&1 || fails "gltool answers otherwise"
  done
  "$prefix/bin/glpicture" <"$1/examples/first.script" >"$work/picture" 2>"$work/log" && grep -q '^digraph' "$work/picture" ||
    fails "glpicture draws nothing"
  diff -r "$top/rust/burlapslate/src" "$prefix/share/burlapslate/rust/burlapslate/src" >"$work/log" || fails "the crate for Rust is not whole"
  [ -s "$1/CONTRIBUTING.md" ] && [ -s "$1/docs/INSTALL.md" ] || fails "a document is not there"
  echo "the_package_has_programs: $name"
  has "$name, by Python" python3 || return 0
  BURLAPSLATE_LIBRARY=$libdir/libburlapslate.so PYTHONPATH=$prefix/share/burlapslate/python PYTHONDONTWRITEBYTECODE=1 timeout 60 \
    python3 "$top/tests/python/test_burlapslate.py" >"$work/log" 2>&1 || fails "the module for Python does not run with it"
  "$prefix/bin/glpicture" --timeline "$1/examples/first.script" >"$work/svg" 2>"$work/log" && grep -q '^<svg' "$work/svg" ||
    fails "glpicture draws no timeline"
  echo "the_package_by_python: $name"
}

# engine FOLDER: the small engine, from the package's examples in the folder, compiles and ends well.
engine() {
  # shellcheck disable=SC2086 # CC may have words after the name.
  ${CC:-cc} -std=c99 -D_POSIX_C_SOURCE=200809L -pthread -Wall -Wextra -Werror -O1 -I"$prefix/include" -o "$work/engine" \
    "$1"/examples/engine/*.c "$libdir/libburlapslate.so" 2>"$work/log" || fails "the engine is not compiled"
  runs shared "$work/engine"
  echo "the_package_has_an_engine: $name"
}

# away: the programs in C, without a checkout.
away() {
  mkdir "$work/away" && cp "$top/tests/c/answers.c" "$work/away/" || exit 1
  awk '$0 == "```c" { inside = 1; next } inside && $0 == "```" { exit } inside' "$top/README.md" >"$work/away/first.c"
  [ -s "$work/away/first.c" ] || { echo "tests/c: no program in README.md" >&2; exit 1; }
  cat >"$work/away/CMakeLists.txt" <<END_OF_FILE
cmake_minimum_required(VERSION 3.10)
project(away C)
set(CMAKE_C_STANDARD 11)
set(CMAKE_C_EXTENSIONS OFF)
find_package(burlapslate $version REQUIRED)
foreach(program first answers)
  add_executable(\${program}_shared \${program}.c)
  target_link_libraries(\${program}_shared burlapslate::burlapslate)
  add_executable(\${program}_archive \${program}.c)
  target_link_libraries(\${program}_archive burlapslate::static)
endforeach()
END_OF_FILE
}

"$top/tools/package.sh" "$work/packed" >"$work/log" 2>&1 || status=$?
[ "$status" -eq 0 ] || [ "$status" -eq 77 ] || fails "package.sh ends with status $status"
cat "$work/packed"/*.tar.gz >/dev/null 2>"$work/log" || fails "there is no archive"
version=$(basename "$work/packed"/*.tar.gz | cut -d - -f 2)
# A crate that no test run has seen proved fails the packaging, and a log of kept proofs has the same verdicts.
verdicts=$top/crates/gl_c/out/verdicts
cp "$verdicts" "$work/verdicts" || exit 1
sed -n 's/^proved \(.*\)/rt: \1 is kept: an earlier run on this machine proved the same/p' "$work/verdicts" |
  "$top/tools/library.sh" verdicts_of "$(sed -n 's/^crates //p' "$work/verdicts")" | cmp - "$work/verdicts" >"$work/log" || fails "kept proofs are other verdicts"
grep -vx 'proved gl_graph' "$work/verdicts" >"$verdicts"
! "$top/tools/package.sh" "$work/lacking" >"$work/log" 2>&1 || fails "a crate without a verdict is packed"
grep -q gl_graph "$work/log" || fails "it does not say which crate has no verdict"
cp "$work/verdicts" "$verdicts"
away && "$top/rust/away.sh" "$work/away" || exit 1
has "as C++" "${CXX:-c++}" || true

name=archive root=$work/archive
mkdir "$root" && tar -C "$root" -xzf "$work/packed/burlapslate-$version-linux-x86_64.tar.gz" || exit 1
prefix=$root/burlapslate-$version-linux-x86_64
libdir=$prefix/lib
shows && refuses && holds
engine "$prefix"
others "$prefix"
by_pkg_config
by_cmake
by_cargo BURLAPSLATE_DIR="$prefix" PKG_CONFIG=false
! { command -v pkg-config && command -v cargo; } >/dev/null || by_cargo PKG_CONFIG_PATH="$libdir/pkgconfig"

name=debian root=$work/debian
if has "as Debian packages" dpkg-deb && has "as Debian packages" dpkg; then
  for package in "$work/packed"/*.deb; do dpkg -x "$package" "$root" || exit 1; done
  prefix=$root/usr libdir=$root/usr/lib/x86_64-linux-gnu
  shows && refuses && holds
  engine "$prefix/share/doc/libburlapslate-dev"
  others "$prefix/share/doc/libburlapslate-dev"
  by_pkg_config "--define-variable=prefix=$prefix"
  by_cmake
  by_cargo BURLAPSLATE_LIBS="$libdir/libburlapslate.a" PKG_CONFIG=false
fi
exit "$status"
