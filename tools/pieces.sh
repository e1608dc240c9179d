#!/usr/bin/env bash
# pieces.sh FILE.md SOURCE..: checks that each piece of C in a text, between a line ```c and a line ```, is in one of
# these sources, line by line and with nothing in between; it may be indented there, all lines alike. Prints how many
# pieces it found. Ends with status 1 at the first piece that is in no source, and if there is no piece.
set -uo pipefail
[ "$#" -ge 2 ] || { echo "usage: tools/pieces.sh FILE.md SOURCE.." >&2; exit 2; }
exec awk '
  # Whether the piece is in a source from this line on, indented as its first line is.
  function stands_at(file, from,    indent, i, line) {
    indent = substr(source[file, from], 1, length(source[file, from]) - length(piece[1]))
    if (indent !~ /^ *$/) return 0
    for (i = 1; i <= count; i++) {
      line = piece[i] == "" ? "" : indent piece[i]
      if (from + i - 1 > lines[file] || source[file, from + i - 1] != line) return 0
    }
    return 1
  }
  function stands(    file, from) {
    for (file = 2; file < ARGC; file++) {
      for (from = 1; from <= lines[file]; from++) if (stands_at(file, from)) return 1
    }
    return 0
  }
  # Reads one source.
  function read(file,    line) {
    while ((getline line < ARGV[file]) > 0) source[file, ++lines[file]] = line
    if (lines[file] == 0) fail("nothing to read in " ARGV[file])
    close(ARGV[file])
  }
  function fail(why) {
    print "pieces.sh: " why > "/dev/stderr"
    exit 1
  }
  BEGIN {
    for (file = 2; file < ARGC; file++) read(file)
    while ((getline line < ARGV[1]) > 0) {
      at++
      if (line == "```c") { inside = 1; count = 0; began = at }
      else if (inside && line == "```") {
        inside = 0
        if (count == 0 || !stands()) fail(ARGV[1] ":" began ": this piece stands in no source: " piece[1])
        found++
      }
      else if (inside) piece[++count] = line
    }
    if (inside) fail(ARGV[1] ":" began ": this piece does not end")
    if (found == 0) fail("no piece in " ARGV[1])
    print found " pieces of " ARGV[1] " stand in the sources"
  }
' "$@"
