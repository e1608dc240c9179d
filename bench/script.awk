# Writes a script of 16 MiB for bench/lines.sh:
#
#     awk -v kind=KIND -v names=N -v asked=M -f bench/script.awk
#
# - begin: the same `begin` over and over; all but the first are refused, the name being in use.
# - locks: rounds of `lock`, `try` and `commit` after a `begin`, as a transaction that writes one file.
# - bad: lines that are no commands, each for another reason.
# - none: N nodes are declared, and no more.
# - names: N nodes are declared, and then a million queries ask for M of them, spread over all, in a scattered order.

function say(line) {
  print line
  left -= length(line) + 1
}

function declare(n, i) {
  for (i = 0; i < n; i++) printf "inner n%05d\n", i
}

BEGIN {
  left = 16777216
  if (kind == "begin") while (left >= 8) say("begin a")
  if (kind == "bad") while (left >= 48) {
    say("lock a s db")
    say("begin  a")
    say("commit 1")
    say("held a i1.01")
  }
  if (kind == "locks") {
    say("inner db")
    say("file f1 : db")
    while (left >= 48) {
      say("begin a")
      say("lock a IX db")
      say("try a X f1")
      say("commit a")
    }
  }
  if (kind == "none") declare(names)
  if (kind == "names") {
    declare(names)
    for (i = 0; i < 1000000; i++) {
      at = (at + 25741) % asked
      printf "group n%05d\n", at * int(names / asked)
    }
  }
}
