#!/usr/bin/env bash
# affected.sh [REV]: prints what has to be run for what changed since REV, by default since the last commit: a command a
# line, proofs first. A whole `./check` contains them all but the mutants and the planted faults.
set -uo pipefail
cd "$(dirname "$0")/.." || exit 2
if [ $# -gt 1 ] || [[ ${1:-} == -* ]]; then
  sed -n '2,3s/^# //p' "$0" >&2
  exit 2
fi
changed=$({ git diff --name-only "${1:-HEAD}" -- && git ls-files --others --exclude-standard; } | sort -u) || exit 2

# touches PATTERN: whether a file changed whose name has the pattern.
touches() {
  grep -Eq "$1" <<<"$changed"
}

# The crates whose code, contracts or proofs changed, and all that depend on them, lowest first.
own=$(sed -nE 's#^crates/([^/]+)/(src|specs|proofs|must-fail)/.*#\1#p' <<<"$changed" | sort -u)
affected=()
while read -r crate; do
  tools/library.sh crates_below "$crate" | grep -qxF -f <(echo "${own:-none}") && affected+=("$crate")
done < <(sed -n 's/^\([a-z][a-z_]*\).*:.*/\1/p' crates.txt)
[ "${#affected[@]}" -eq 0 ] || echo "rt ci ${affected[*]}"

# Mutants: all of a crate whose code or contracts changed, or those that are new.
mutated=$(sed -nE 's#^crates/([^/]+)/(src|specs)/.*#\1#p' <<<"$changed" | sort -u)
fresh=$(sed -nE 's#^crates/([^/]+)/wrong/(.*)\.edit$#\1/\2#p' <<<"$changed" | grep -vE "^(${mutated//$'\n'/|})/")
[ -z "$mutated$fresh" ] || xargs echo tools/wrong_bodies.sh <<<"$mutated $fresh"

# has CRATE: whether a crate is affected.
has() {
  [[ " ${affected[*]} " == *" $1 "* ]]
}
if has gltool || has glpicture || touches '^(tests/scripts|examples/.*\.script|docs/(SCRIPT|LOCKS))'; then
  echo "tests/scripts/run.py && tests/scripts/beside.py"
fi
if has gltool || has glpicture || touches '^(glpicture|tests/pictures|docs/pictures|tools/timeline)'; then
  echo "tests/pictures/run.sh"
fi
if has gl_c || touches '^(c|include|tests/c|tools/(c_library|install|package)|packaging)/?'; then
  echo "tools/c_library.sh && for each in run plus install package metrics probes traces; do tests/c/\$each.sh; done && tests/c/races.sh short"
  echo "for each in engine guide cluster; do examples/\$each/run.sh; done"
fi
! touches '^c/' || echo "tests/c/faults.sh all"
if has gl_c || touches '^(c|include|python|tests/python)/'; then echo "tests/python/run.sh"; fi
if has gl_c || touches '^(c|include|rust)/'; then echo "rust/run.sh && rust/installed.sh"; fi
if has gl_slots || touches '^tools/(wide|library)' || touches '^crates/gl_wide_slots/'; then echo "tools/wide.sh"; fi
! touches '\.md$' || echo "tools/links.py && tools/pages.sh && tests/scripts/run.py"
! touches '^crates/.*\.(rt|antt)$' || echo "tools/lines.py"
