#!/usr/bin/env bash
# pages.sh: prints the number of words of each page, or of pages that share a limit, with the limit. Ends with status 1
# if there are more. If you add a section, remove one.
set -uo pipefail
cd "$(dirname "$0")/.." || exit 2

status=0
# limit MOST PAGE..: checks that these pages have at most so many words.
limit() {
  local most=$1 words
  words=$(cat "${@:2}" | wc -w) || exit 2
  printf '%6d of %6d words: %s\n' "$words" "$most" "${*:2}"
  [ "$words" -le "$most" ] || { echo "pages.sh: too many words: ${*:2}" >&2 && status=1; }
}

limit 800 README.md
limit 5000 docs/ENGINES.md
limit 5500 docs/LOCKS.md
limit 7320 docs/SCRIPT.md docs/MODEL.md docs/FIGURES.md
limit 3690 docs/PROMISES.md
limit 2500 docs/DECISIONS.md
limit 900 docs/TESTS.md
limit 6000 docs/ARCHITECTURE.md CONTRIBUTING.md docs/CHOOSING.md docs/CLUSTERS.md docs/PICTURES.md
limit 400 docs/INSTALL.md
limit 2500 CHANGELOG.md
limit 32000 README.md CONTRIBUTING.md docs/*.md
exit "$status"
