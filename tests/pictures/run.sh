#!/usr/bin/env bash
# run.sh: draws each example, the scripts of docs/pictures and one of eight transactions and sixty commands as a timeline,
# and checks that each is well formed, has a row for each transaction, and marks waits, victims and ends as its script
# has them. A browser, if there is chromium, measures them all (geometry.js); else rsvg-convert draws the largest. Then
# what glpicture does beside its picture: it names refused lines, ends at the first by --strict, leaves out idle nodes, and
# calls dot. Ends with status 1 if anything is not so.
set -uo pipefail
top=$(cd "$(dirname "$0")/../.." && pwd) || exit 2
command -v python3 >/dev/null || { echo "tests/pictures: not tried: python3 is not found"; exit 77; }
work=$(mktemp -d) || exit 2
trap 'rm -rf "$work"' EXIT
fails() {
  echo "tests/pictures: $*" >&2
  exit 1
}

# Eight clerks lock a record each, and then the next one's: the last closes the cycle.
{
  echo "inner db"
  echo "file accounts : db"
  echo "begin maker"
  for each in db accounts; do echo "lock maker IX $each"; done
  for n in 1 2 3 4 5 6 7 8; do echo "insert maker r$n accounts"; done
  echo "commit maker"
  for n in 1 2 3 4 5 6 7; do
    echo "begin clerk$n"
    for each in db accounts; do echo "lock clerk$n IX $each"; done
    echo "lock clerk$n X r$n"
  done
  for n in 1 2 3 4 5 6; do echo "lock clerk$n X r$((n + 1))"; done
  echo "lock clerk7 X r1"
  echo "abort clerk7"
  for n in 6 5 4 3 2 1; do echo "commit clerk$n"; done
} >"$work/ring.script"

for script in "$top"/examples/*.script "$top"/docs/pictures/*.script "$work/ring.script"; do
  name=$(basename "$script" .script)
  "$top/glpicture" --timeline "$script" >"$work/$name.svg" 2>"$work/log" || { cat "$work/log" >&2; fails "$name is not drawn"; }
  python3 - "$work/$name.svg" "$script" <<'END_OF_CHECK' || fails "the timeline of $name is not as it should be"
import re
import sys
import xml.etree.ElementTree as tree

root = tree.parse(sys.argv[1]).getroot()
of = "{http://www.w3.org/2000/svg}"
script = open(sys.argv[2], encoding="utf-8").read()
texts = [it.text for it in root.iter(of + "text")]
classes = [it.get("class") for it in root.iter() if it.get("class")]
begun = re.findall(r"^begin (\w+)$", script, re.M)
assert all(texts.count(name) >= 1 for name in begun), "a row is not there"
titles = [it.text for it in root.iter(of + "title")]
waits = sum(title.endswith(": wait") for title in titles)
assert classes.count("waits") >= (1 if waits else 0) and (classes.count("way") >= 1) == bool(classes.count("waits"))
victims = sum(title.endswith(": victim") for title in titles)
assert classes.count("victim") >= victims, "a victim is not marked"
assert classes.count("end") <= len(begun)
END_OF_CHECK
  echo "timeline: $name"
done
[ "$(grep -c 'class="victim"' "$work/ring.svg")" -eq 1 ] && [ "$(grep -c 'class="end"' "$work/ring.svg")" -eq 8 ] || fails "the ring is drawn otherwise"

# Lines that are refused: blanks, a comment that is too long, an escape, a carriage return, a name in capitals.
printf 'inner db\n   \n# %0300d\nbegin a\nlo\033k a\nlock a S db\r\nlock a S db\nbegin A\n' 0 >"$work/odd.script"
"$top/glpicture" --detect by-watcher --timeline "$work/odd.script" >"$work/odd.svg" 2>"$work/log" || fails "refused lines are not drawn"
[ "$(grep -c '^line [23568]: ' "$work/log")" -eq 5 ] || { cat "$work/log" >&2; fails "a timeline does not name the refused lines"; }
python3 -c 'import sys, xml.etree.ElementTree as tree; tree.parse(sys.argv[1])' "$work/odd.svg" || fails "refused lines are drawn badly"
"$top/glpicture" --strict --timeline "$work/odd.script" >"$work/picture" 2>"$work/log"
[ $? -eq 3 ] && [ ! -s "$work/picture" ] || fails "a timeline with a refused line is drawn by --strict"
"$top/glpicture" --timeline --svg "$work/odd.script" >"$work/picture" 2>"$work/log"
[ $? -eq 2 ] && grep -q 'draws the whole script' "$work/log" || fails "--timeline takes --svg"
echo "timeline: what is refused"

if browser=$(command -v chromium || command -v chromium-browser || command -v google-chrome); then
  {
    echo '<!doctype html><meta charset="utf-8"><body>'
    for picture in "$work"/*.svg; do
      echo "<figure id=\"$(basename "$picture" .svg)\">" && cat "$picture" && echo "</figure>"
    done
    echo "<script>" && cat "$top/tests/pictures/geometry.js" && echo "</script>"
  } >"$work/page.html"
  timeout 60 "$browser" --headless --no-sandbox --disable-gpu --dump-dom "file://$work/page.html" >"$work/measured" 2>"$work/log"
  grep -q 'pictures: [1-9][0-9]*, faults: 0$' "$work/measured" || { cat "$work/measured" >&2; fails "a browser draws them otherwise"; }
  echo "timelines, measured by $(basename "$browser")"
elif command -v rsvg-convert >/dev/null; then
  rsvg-convert -o "$work/ring.png" "$work/ring.svg" && [ -s "$work/ring.png" ] || fails "rsvg-convert does not draw it"
  echo "timeline: ring, drawn by rsvg-convert"
else
  echo "timelines: not measured: neither chromium nor rsvg-convert is found"
fi
[[ $("$top/tools/timeline.py" --help) == timeline.py* ]] || fails "--help says nothing"
echo "inner db" | "$top/glpicture" --timeline >/dev/null 2>"$work/log" && fails "a script without a transaction is drawn"
grep -q 'begins no transaction' "$work/log" || fails "it does not say why"

printf 'inner db\nfile f : db\nlokc a S db\n' >"$work/bad.script"
"$top/glpicture" "$work/bad.script" >"$work/picture" 2>"$work/log" || fails "a script with a bad line is not drawn"
grep -q '^line 3: unknown command "lokc";' "$work/log" && grep -q '^digraph' "$work/picture" || fails "a bad line is not named"
"$top/glpicture" --strict "$work/bad.script" >"$work/picture" 2>"$work/log"
[ $? -eq 3 ] && [ ! -s "$work/picture" ] || fails "a bad line is drawn by --strict"
"$top/glpicture" --held <"$work/bad.script" >"$work/picture" 2>"$work/log" || fails "--held draws nothing"
grep -q label "$work/picture" && fails "--held draws an idle node"
"$top/glpicture" --hold "$work/bad.script" >"$work/picture" 2>"$work/log"
[ $? -eq 2 ] && grep -q '^glpicture: unknown word: --hold$' "$work/log" && grep -q '^usage: glpicture' "$work/log" ||
  fails "an unknown word is not refused with the usage"
echo "lokc a S db" | "$top/glpicture" >"$work/picture" 2>"$work/log"
[ $? -eq 1 ] && [ ! -s "$work/picture" ] && grep -q 'nothing to draw' "$work/log" || fails "a script of bad lines is drawn"
echo "pictures: what glpicture says"
if command -v dot >/dev/null; then
  "$top/glpicture" --svg --graph "$top/docs/pictures/phantom.script" >"$work/picture" 2>"$work/log" &&
    grep -q '</svg>' "$work/picture" || fails "--svg draws nothing"
  echo "pictures: phantom, by dot"
else
  echo "pictures: not drawn: dot is not found"
fi
