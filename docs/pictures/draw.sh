#!/usr/bin/env bash
# draw.sh: draws the pictures of this folder anew, each of the state in which a script ends. Needs dot, of
# Graphviz.
set -euo pipefail
here=$(cd "$(dirname "$0")" && pwd)
picture=$here/../../glpicture
command -v dot >/dev/null || { echo "draw.sh: dot is not found; it comes with Graphviz" >&2; exit 2; }

# draw NAME WORD..: the picture of the script that is read.
draw() {
  "$picture" "${@:2}" | dot -Tsvg >"$here/$1.svg"
}

draw phantom <"$here/phantom.script"
draw deadlock --waits --detect by-watcher <"$here/deadlock.script"
{ cat "$here/deadlock.script"; echo "settle first"; } | draw victim --waits --detect by-watcher
draw escalation --graph <"$here/escalation.script"
"$picture" --timeline "$here/timeline.script" >"$here/timeline.svg"
