#!/usr/bin/env bash
# run.sh: installs the shared library in a temporary folder and runs the tests of the module for Python over it. Ends
# with their status; without python3 it says so, and ends with status 77: not tried.
set -uo pipefail
top=$(cd "$(dirname "$0")/../.." && pwd) || exit 2
if ! command -v python3 >/dev/null; then
  echo "tests/python: not tried: python3 is not found"
  exit 77
fi
work=$(mktemp -d) || exit 2
trap 'rm -rf "$work"' EXIT
"$top/tools/install.sh" --shared "$work" || exit 1
export BURLAPSLATE_LIBRARY=$work/lib/libburlapslate.so PYTHONPATH=$top/python PYTHONDONTWRITEBYTECODE=1
cd "$top/tests/python" && timeout 60 python3 -W error test_burlapslate.py
