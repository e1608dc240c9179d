#!/usr/bin/env python3
"""beside.py: what gltool does beside the report of a script: its help and version, a script's file, lines with their
answers, reasons of refusals, the end at the first refusal, and what it says of bad words. Each whole example of
docs/SCRIPT.md and docs/LOCKS.md is what `--echo` prints. GLTOOL names another program than the proved one.
Ends with status 1 at the first that is not as wanted."""
import os
import re
import subprocess
import sys
import tempfile
from pathlib import Path

from run import blocks_of, rows_of

TOP = os.path.dirname(os.path.dirname(os.path.dirname(os.path.realpath(__file__))))
TOOL = os.environ.get("GLTOOL", f"{TOP}/crates/gltool/out/gltool")


def run(*words, text=""):
    done = subprocess.run([TOOL, *words], input=text.encode(), capture_output=True, timeout=60)
    return done.returncode, done.stdout.decode(), done.stderr.decode()


def wanted(is_so, what, *came):
    if not is_so:
        sys.exit(f"tests/scripts/beside.py: {what}: not so\n" + "\n".join(map(str, came)))


# The words by which the pages run their examples.
WORDS = (), ("--listings", "--schema", "--savepoints", "--trace"), ("--detect", "by-watcher")


def examples():
    """The whole examples of the pages, each with its script: each block that begins one."""
    for page in ("docs/SCRIPT.md", "docs/LOCKS.md"):
        for lines, _ in blocks_of(Path(TOP) / page):
            if re.match(r"(inner|granular) ", lines[0][1]):
                script = b"".join(line for line, _ in rows_of(lines, page)).decode()
                yield f"{page}:{lines[0][0]}", "".join(f"{line}\n" for _, line in lines), script


def pages():
    count = 0
    for place, block, script in examples():
        printed = [run("--echo", *words, text=script) for words in WORDS]
        wanted((0, block, "") in printed, f"the example at {place} is what --echo prints", block, *(out for _, out, _ in printed))
        count += 1
    wanted(count > 10, "the pages have examples")
    told = run("--echo", f"{TOP}/examples/two_upgrades.script")[1]
    wanted(f"```\n{told}```\n" in (Path(TOP) / "README.md").read_text(encoding="utf-8"), "README shows what --echo prints", told)
    print(f"{count} examples of the pages, as gltool prints them")


BAD = """inner db
file orders : db
index by_day : db on orders at 100
begin a
lock a s db
lock a  S db
lock a S db\x20
lock a IS db
insert a r orders 5
mark a
drop a db
holders db
lokc a S db
lock a X
held a by_day.7
begin a
lock a S db\r
\tlock
move a orders : db
lo\x1bk a
adopt r orders 5
forget r
begin c again 1
begin c join 1 1
renew a 1
# a comment
#""" + 256 * "y" + """
commit b
"""
COMMANDS = ("inner, file, index, begin, lock, try, unlock, cancel, commit, abort, settle, insert, delete, rekey, escalate, "
            "group, held, effective")
FIELDS = (" (names: 1 to 16 of a to z, 0 to 9 and _, the first a letter, not on, not at; INDEX.0 is an interval; "
          "numbers: no sign, no 0 in front, below 2^64)")
REASONS = f"""line 5: unknown mode "s"; modes are IS, IX, S, SIX, X
line 6: it has two blanks side by side
line 7: it ends with a blank
line 9: orders has to be held in IX first
line 10: it needs the word --savepoints
line 11: it needs the word --schema
line 12: it needs the word --listings
line 13: unknown command "lokc"; commands are {COMMANDS}
line 14: it is to be: lock TXN MODE NODE{FIELDS}
line 15: by_day.7 names no node
line 16: a is a name in use
line 17: it has a carriage return: lines end by a newline alone
line 18: it has a tab: fields have one blank between them
line 19: it is to be: move TXN NODE, or move TXN NODE : PARENT.., after the first line `granular 2`{FIELDS}
line 20: unknown command "lo?k"; commands are {COMMANDS}
line 21: it needs the word --trace
line 22: it needs the word --trace
line 23: it needs the word --trace
line 24: it needs the word --trace
line 25: it needs the word --trace
line 27: it has more than 256 bytes
line 28: b names no transaction
"""


def words():
    status, out, err = run("--help")
    wanted(status == 0 and out.startswith("usage: gltool ") and err == "", "--help prints the usage", out, err)
    number = re.findall(r"^#define BS_VERSION_(?:MAJOR|MINOR|PATCH) (\d+)$", open(f"{TOP}/include/burlapslate.h").read(), re.M)
    wanted(run("--version") == (0, f"gltool {'.'.join(number)}\n", ""), "--version prints the header's version", run("--version"))
    for name in ("first", "escalation"):
        with open(f"{TOP}/examples/{name}.expected", encoding="utf-8") as expected:
            wanted(run(f"{TOP}/examples/{name}.script") == (0, expected.read(), ""), "a script's file is run")
    plain = run(text=BAD)
    wanted(run("--explain", text=BAD) == (0, plain[1], REASONS), "--explain gives the reasons", run("--explain", text=BAD)[2])
    said = run("--explain", "--trace", text="begin a join 3 9\nbegin b join 3 9\nbegin b join\n")[2].splitlines()
    wanted(said[0].endswith("another transaction has the slot, or there are not so many: 64, or 128 after the line `granular 2`")
           and "it is to be: begin TXN, or by --trace begin TXN again AGE or begin TXN join SLOT AGE" in said[1], "--explain tells of joins", said)
    said = run("--explain", "--schema", text="split a i.0 50\nmerge a\nindex a i : db on f with r at 5\n")[2].splitlines()
    index = ("index NODE : PARENT.. on FILE at BOUND.., or by --schema index TXN NODE : PARENT.. on FILE at BOUND.., "
             "perhaps with RECORD.. at KEY..")
    forms = [f"line {line}: it is to be: {form}{FIELDS}" for line, form in enumerate(("split TXN INTERVAL at BOUND", "merge TXN INTERVAL", index), 1)]
    wanted(said == forms, "--explain tells of splits and indexes", said)
    status, out, err = run("--strict", text=BAD)
    wanted((status, out, err) == (3, "".join(plain[1].splitlines(True)[:5]), ""), "--strict ends at the first refusal", status, out, err)
    wanted(run("--strict", text="inner db\n") == (0, "ok\n", ""), "--strict ends a script that has none with 0")
    with tempfile.TemporaryDirectory() as folder:
        status, out, err = run(f"{folder}/none")
        wanted(status == 1 and out == "" and err == f"gltool: {folder}/none: cannot be read\n", "a file that is not there is named", err)
        status, out, err = run(folder)
        wanted(status == 1 and out == "", "a folder is no script", err)
    for bad, word in ((["--crew", "129", "--rounds", "1"], "129"), (["--oops"], "--oops"), (["--detect"], "--detect"), (["--victims=no"], "--victims=no"),
                      (["--detect=by-watcher", "--oops"], "--oops")):
        status, out, err = run(*bad)
        lines = err.splitlines()
        wanted(status == 2 and out == "" and lines[0] == "gltool: bad words" and lines[1].endswith(f": {word}") and lines[2].startswith("usage: "),
               f"the bad word of {bad} is named", err)
    for half in (["--crew", "2"], ["--crew", "2", "--rounds", "1", "--echo"], ["--strict", "--crew=2", "--rounds=1"],
                 ["--crew", "2", "--rounds", "1", f"{TOP}/examples/first.script"]):
        status, out, err = run(*half)
        wanted(status == 2 and out == "" and "these words do not go together (--crew needs --rounds" in err, "a crew has no other words", half, err)
    wanted(run("--oops", "--help") == run("--help"), "--help is answered beside other words")
    echoed = run("--echo", text=BAD)[1].split("\n")
    wanted(len(echoed) == len(BAD.split("\n")) and echoed[-3].endswith("y  no 20 BadLine") and echoed[-2].endswith(" no 3 NoSuchTxn b"),
           "each line has its answer", *echoed)
    print("gltool's own words")


words()
pages()
