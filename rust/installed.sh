#!/usr/bin/env bash
# installed.sh: builds the crate `burlapslate` from an installation, with no checkout beside it: a copy of the crate by
# what pkg-config says, by a folder that is named, and by `cargo package`, whose verification builds what it packs. A
# program that uses it is run. A folder that is not named from / on is refused. Takes no network. Ends with status 1 if
# something is not as wanted; without cargo or pkg-config it says so, and ends with status 77: not tried.
set -uo pipefail
top=$(cd "$(dirname "$0")/.." && pwd) || exit 2
for tool in cargo pkg-config; do
  command -v "$tool" >/dev/null || { echo "rust: from an installation: not tried: $tool is not found"; exit 77; }
done
work=$(mktemp -d) || exit 2
trap 'rm -rf "$work"' EXIT
"$top/tools/install.sh" "$work/there" || exit 1

"$top/rust/away.sh" "$work/away" || exit 1

# builds NAME WORD..: whether the program is built and ends well, with these words in the environment.
builds() {
  local name=$1
  shift
  if ! (cd "$work/away/program" && timeout 300 env -u BURLAPSLATE_LIBS -u BURLAPSLATE_DIR CARGO_TARGET_DIR="$work/$name" \
    "$@" cargo run --offline --quiet) >"$work/log" 2>&1; then
    cat "$work/log" >&2
    echo "rust: from an installation, $name: it does not build or run" >&2
    exit 1
  fi
  echo "the_crate_from_an_installation: $name"
}

builds by_pkg_config PKG_CONFIG_PATH="$work/there/lib/pkgconfig"
builds by_its_prefix PKG_CONFIG=false BURLAPSLATE_DIR="$work/there"
builds by_its_folder PKG_CONFIG=false BURLAPSLATE_DIR="$work/there/lib"
builds by_one_archive PKG_CONFIG=false BURLAPSLATE_LIBS="$work/there/lib/libburlapslate.a"

if (cd "$work/away/program" && timeout 300 env -u BURLAPSLATE_LIBS CARGO_TARGET_DIR="$work/other" PKG_CONFIG=false \
  BURLAPSLATE_DIR="$work/there" BURLAPSLATE_SLOTS=1024 cargo run --offline --quiet) >"$work/log" 2>&1 ||
  ! grep -q 'the library is for 128 slots, and the crate was built for 1024' "$work/log"; then
  echo "rust: from an installation: a crate for another number of slots is not stopped" >&2
  exit 1
fi
echo "the_crate_from_an_installation: of another number of slots, stopped"

# stops FOLDER WORDS: whether a build with this BURLAPSLATE_DIR ends, and says these words.
stops() {
  if (cd "$work/away/program" && env -u BURLAPSLATE_LIBS CARGO_TARGET_DIR="$work/none" BURLAPSLATE_DIR="$1" \
    cargo build --offline --quiet) >"$work/log" 2>&1 || ! grep -qF "$2" "$work/log"; then
    cat "$work/log" >&2
    echo "rust: from an installation: BURLAPSLATE_DIR=$1 is not refused by name" >&2
    exit 1
  fi
}
stops there 'BURLAPSLATE_DIR is there: name the folder from / on'
stops "$work/away" "libburlapslate.a is not in $work/away/lib or $work/away"

if (cd "$work/away/program" && env -u BURLAPSLATE_LIBS -u BURLAPSLATE_DIR CARGO_TARGET_DIR="$work/none" PKG_CONFIG=false \
  cargo build --offline --quiet) >"$work/log" 2>&1 || ! grep -q 'the library for C is not found' "$work/log"; then
  echo "rust: from an installation: without one it does not say so" >&2
  exit 1
fi

(cd "$top/rust/burlapslate" && timeout 300 env -u BURLAPSLATE_LIBS -u BURLAPSLATE_DIR CARGO_TARGET_DIR="$work/package" \
  PKG_CONFIG_PATH="$work/there/lib/pkgconfig" cargo package --offline --quiet --allow-dirty) >"$work/log" 2>&1 ||
  { cat "$work/log" >&2; echo "rust: cargo package does not verify" >&2; exit 1; }
echo "the_crate_from_an_installation: packed"
