#!/usr/bin/env bash
# run.sh [WORD..]: runs the tests of the crate `burlapslate` and the examples in its documentation, with
# no network. The words go to `cargo test`. Ends with cargo's status; without cargo it says so, and
# ends with status 77: not tried. BURLAPSLATE_LIBS names other archives than those of tools/c_library.sh.
# What is built goes to a temporary folder, or to CARGO_TARGET_DIR.
set -uo pipefail
top=$(cd "$(dirname "$0")/.." && pwd) || exit 2
if ! command -v cargo >/dev/null; then
  echo "rust: not tried: cargo is not found"
  exit 77
fi
work=$(mktemp -d) || exit 2
trap 'rm -rf "$work"' EXIT

if [ -z "${BURLAPSLATE_LIBS:-}" ]; then
  mapfile -t libraries < <("$top/tools/c_library.sh" 2>"$work/log")
  [ "${#libraries[@]}" -eq 3 ] || { cat "$work/log" >&2; exit 1; }
  BURLAPSLATE_LIBS=$(IFS=: && echo "${libraries[*]}") && export BURLAPSLATE_LIBS
fi
export CARGO_TARGET_DIR=${CARGO_TARGET_DIR:-$work/target}
cd "$top/rust/burlapslate" || exit 2
timeout 600 cargo test --offline "$@"
