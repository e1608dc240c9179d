#!/usr/bin/env python3
"""run.py [PAGE..]: plays scripts through the proved programs gltool and glpicture, and compares all that they print
byte for byte. The scripts are those of the pages *.transcript beside this file, the examples of docs/SCRIPT.md and
docs/LOCKS.md, and some that are made here. Each is read whole and in pieces of five sizes, and then with each read and
with each write failing in turn, by streams.c. The last line is 'tests/scripts: N scripts, as wanted'; or the run ends
with status 1 at the first script that is not as wanted. With words it plays those pages alone.

GLTOOL and GLPICTURE name other programs than those of crates/*/out, and CC another compiler than cc.

A page has its scripts as docs/SCRIPT.md has them: the answer to the right of its line, in one column, and below it what
others are told, or the rows of a listing. Empty lines count for nothing, and \\xHH is the byte HH. Further lines:

  # TEXT                  before the first script: what the page is about
  @beginning NAME: TEXT   lines with which scripts of the page begin
  @script TITLE           a script
  @after NAME             it begins with those lines
  @words WORD..           the words for the program; each such line is one run
  @program NAME           glpicture, in place of gltool
  @report                 all that is printed is below this line, and the lines above have no answers
  @status N               the exit status, if it is not 0
  @errors TEXT            the line on standard error
  @usage TEXT             the same, and after it the bad word and the usage (beside.py)
"""

import difflib
import os
import re
import shlex
import struct
import subprocess
import sys
import tempfile
from concurrent.futures import ThreadPoolExecutor
from dataclasses import dataclass, field
from pathlib import Path

HERE = Path(__file__).resolve().parent
TOP = HERE.parent.parent

# The most bytes that a script may have.
LONGEST = 16_777_216
# The sizes of pieces besides that of a whole script.
PIECES = (1, 7, 255, 256, 257)
# Numbers of errors.
EINTR, EIO = 4, 5
# What streams.c says of each fault, before what was written and said (struct record).
RECORD = struct.Struct("6Q")

programs = {}


class NotAsWanted(Exception):
    """The text says what, where and how."""


@dataclass
class Script:
    title: str
    place: str
    # Lines, each with its newline, and what is answered to it; all bytes.
    rows: list = field(default_factory=list)
    # Lists of words, one for each run.
    words: list = field(default_factory=list)
    program: str = "gltool"
    # What is printed, if it is not the answers to the lines.
    report: bytes = None
    status: int = 0
    errors: bytes = b""
    has_usage: bool = False
    # Whether it is tried with failing reads and writes too.
    has_faults: bool = True

    def text(self):
        return b"".join(line for line, _ in self.rows)

    def wanted(self):
        return self.report if self.report is not None else b"".join(answer for _, answer in self.rows)

    def answered(self, count):
        """What is printed after a read that fails, when so many bytes were read: the answers to whole lines."""
        end, answers = 0, b""
        for line, answer in self.rows if self.report is None else []:
            end += len(line)
            if end > count or not line.endswith(b"\n"):
                break
            answers += answer
        return answers

    def reads_nothing(self, words):
        return self.status == 2 or b"cannot be read" in self.errors or any(word.startswith("--crew") for word in words)

    def first_line(self, printed):
        """The first line whose answer is not as wanted."""
        for line, answer in self.rows:
            if not printed.startswith(answer):
                return line.decode(errors="backslashreplace").rstrip("\n")
            printed = printed[len(answer) :]
        return "the end"

    def differs(self, words, how, what, wanted, came):
        head = f"{self.place}: {self.title}: {self.program} {shlex.join(words)}: {how}: {what}"
        if what == "printed" and self.report is None:
            head += f" at '{self.first_line(came)}'"
        shown = difflib.unified_diff(lines_of(wanted), lines_of(came), "wanted", "came", lineterm="")
        raise NotAsWanted("\n".join([head, *list(shown)[:40]]))

    def said(self, errors):
        """What is compared of what was said: of a usage the line ahead of it."""
        first, _, rest = errors.partition(b"\n")
        return first + b"\n" if self.has_usage and b"\nusage: gltool " in rest else errors


def lines_of(value):
    return value.decode(errors="backslashreplace").split("\n") if isinstance(value, bytes) else [str(value)]


# ----------------------------------------------------------------------------------------------------------------------
# Pages.


def bytes_of(text):
    return re.sub(rb"\\x([0-9a-f]{2})", lambda it: bytes([int(it[1], 16)]), text.encode())


def column_of(lines):
    """Where the answers stand: behind the first two spaces of the first line that has one."""
    for _, line in lines:
        found = re.match(r".*?\S  +(?=\S)", line)
        if found and not line.startswith("#"):
            return found.end()
    return None


def rows_of(lines, page):
    """The lines and answers of a script of two columns. Each line comes with its number in the page."""
    rows, column = [], column_of(lines)
    for number, line in lines:
        if line.startswith("#"):
            rows.append((bytes_of(line) + b"\n", b""))
        elif column and not line[:column].strip() and rows:
            rows[-1] = (rows[-1][0], rows[-1][1] + line[column:].encode() + b"\n")
        elif column and line[column - 1 : column] == " " and line[column:].strip():
            rows.append((bytes_of(line[:column].rstrip()) + b"\n", line[column:].encode() + b"\n"))
        else:
            raise NotAsWanted(f"{page}:{number}: there is no answer at column {column}: {line}")
    return rows


def sections_of(path):
    """The parts of a page that begin with @beginning or @script, as lines with their numbers."""
    sections = []
    for number, line in enumerate(path.read_text(encoding="utf-8").split("\n"), 1):
        if line.startswith(("@beginning ", "@script ")):
            sections.append([(number, line)])
        elif sections and line:
            sections[-1].append((number, line))
        elif line and not line.startswith("#"):
            raise NotAsWanted(f"{path.name}:{number}: a line before the first script: {line}")
    return sections


def split_section(lines):
    """The lines with a word of the runner, by that word; the script; and the report, if it is below."""
    marks, script, report = {}, [], None
    for number, line in lines:
        word, _, rest = line.partition(" ")
        if report is not None:
            report += line.encode() + b"\n"
        elif word == "@report":
            report = b""
        elif line.startswith("@"):
            marks.setdefault(word, []).append(rest)
        else:
            script.append((number, line))
    return marks, script, report


def scripts_of(path):
    scripts, beginnings = [], {}
    for section in sections_of(path):
        marks, lines, report = split_section(section)
        if "@beginning" in marks:
            beginnings[marks["@beginning"][0].partition(":")[0]] = rows_of(lines, path.name)
            continue
        rows = [row for name in marks.get("@after", []) for row in beginnings[name]]
        if report is None:
            rows = rows + rows_of(lines, path.name)
        else:
            rows = [(line, b"") for line, _ in rows] + [(bytes_of(line) + b"\n", b"") for _, line in lines]
        script = Script(marks["@script"][0], f"{path.name}:{section[0][0]}", rows, report=report)
        script.words = [shlex.split(words) for words in marks.get("@words", [""])]
        script.program = marks.get("@program", ["gltool"])[0]
        script.status = int(marks.get("@status", ["0"])[0])
        script.has_usage = "@usage" in marks
        script.errors = "".join(line + "\n" for line in marks.get("@errors", marks.get("@usage", []))).encode()
        script.has_faults = path.stem != "words"
        scripts.append(script)
    return scripts


# ----------------------------------------------------------------------------------------------------------------------
# Examples of the documents. One that begins with `inner` or `granular` is whole. One that begins with `begin` continues
# the first example of its page, and any other the last whole one. Its words are those that its section names by 'With
# the word `WORD`', or that the line above it names.


def blocks_of(path):
    """The blocks of a document, each with the text of its section that is above it."""
    blocks, above, block = [], "", None
    for number, line in enumerate(path.read_text(encoding="utf-8").split("\n"), 1):
        if line.startswith("```"):
            if block is not None:
                blocks.append((block, above))
            block = [] if block is None else None
        elif block is not None:
            block.append((number, line))
        else:
            above = "" if line.startswith("#") else above + line + "\n"
    return blocks


def words_in(above):
    words = [word for said in re.findall(r"With the words? `(--[^`]*)`", above) for word in said.split()]
    return words + ["--victims", "fewest"] if above.rstrip().endswith("By `fewest` so:") else words


def shell_example(lines, path):
    """An example that begins with what is typed at a shell: `$ ./gltool WORD.. < FILE`."""
    typed, _, source = lines[0][1].partition(" < ")
    text = (TOP / source).read_bytes() if source else b""
    rows = [(line, b"") for line in text.splitlines(keepends=True)]
    report = b"".join(line.encode() + b"\n" for _, line in lines[1:])
    place = f"{path.name}:{lines[0][0]}"
    return Script("what is typed", place, rows, [typed.split()[2:]], report=report, has_faults=False)


def examples_of(path):
    scripts, first, whole = [], None, None
    for lines, above in blocks_of(path):
        if lines[0][1].startswith("$ ./gltool"):
            scripts.append(shell_example(lines, path))
            continue
        rows = rows_of(lines, path.name)
        start = next(line for line, _ in rows if not line.startswith(b"#")).split()[0]
        if start in (b"inner", b"granular"):
            whole = rows
            first = first or rows
        else:
            rows = (first if start == b"begin" else whole) + rows
        scripts.append(Script("an example", f"{path.name}:{lines[0][0]}", rows, [words_in(above)]))
    if not scripts:
        raise NotAsWanted(f"{path.name} has no example")
    return scripts


# ----------------------------------------------------------------------------------------------------------------------
# Scripts that are made here.

BAD, OK = b"no 20 BadLine\n", b"ok\n"


def made(title, rows, words=("",)):
    rows = [(line + b"\n", answer) for line, answer in rows]
    return Script(title, "run.py", rows, [shlex.split(it) for it in words])


def long_lines():
    """Lines of 256 bytes and of one more, a comment as long, two spaces, and a last line without a newline."""
    script = made("a line has 256 bytes at most", [
        (b"a" * 257, BAD), (b"#" + b"x" * 255, b""), (b"begin  a", BAD), (b"#" + b"x" * 256, BAD), (b"a" * 256, BAD),
        (b"begin a", OK),
    ])  # fmt: skip
    script.rows[-1] = (b"begin a", OK)
    return script


def bad_bytes():
    bad = (b"begin a\r", b"begin a\0", b"begin a\x80", b" begin a", b"begin a ", b"begin " + b"a" * 17, b"begin 1a")
    rows = [(line, BAD) for line in bad] + [(b"begin a", OK), (b"held a i1.00", BAD), (b"held a i1.", BAD)]
    return made("bytes, names and numbers that make a line bad", [*rows, (b"#\xff\0", b""), (b"", b"")])


def crowd(most):
    """As many transactions begin as may live, and one more."""
    begins = [(b"begin t%d" % number, OK) for number in range(most)]
    return [*begins, (b"begin t%d" % most, b"no 11 TooManyTxns\n")]


def crowds():
    again = [(b"commit t5", OK), (b"begin t64", OK)]
    yield made("64 transactions live at once, and one that ends makes room", [*crowd(64), *again])
    yield made("128 transactions live at once in version 2", [(b"granular 2", OK), *crowd(128)])


def first_lines():
    """Only `granular 2`, exactly, is a first line that chooses a version."""
    first = (b"granular 1", b"granular 3", b"granular 2 ", b" granular 2", b"GRANULAR 2", b"granular", b"granular 02")
    rest = [(b"inner db", OK), (b"begin a", OK), (b"move a db", BAD), (b"granular 2", BAD)]
    for line in (*first, b"granular 2\r"):
        words = ("", "--victims fewest", "--listings")
        script = made(f"{line} as the first line chooses no version", [(line, BAD), *rest], words)
        script.has_faults = False
        yield script


def many_splits():
    """An index has 256 bounds at most, also by splits; a merge makes room for one more."""
    begun = [(b"inner db", OK), (b"file f : db", OK), (b"index i : db on f at", OK), (b"begin a", OK)]
    locks = [(b"lock a IX db", b"ok IX\n"), (b"lock a IX i", b"ok IX\n"), (b"lock a X i.0", b"ok X\n")]
    splits = [(b"split a i.%d at %d" % (place, place + 1), OK) for place in range(256)]
    last = [(b"split a i.256 at 300", b"no 18 BadKeys\n"), (b"merge a i.0", OK), (b"split a i.255 at 300", OK)]
    script = made("an index has 256 bounds at most", [*begun, *locks, *splits, *last], ("--schema",))
    script.has_faults = False
    return script


STREAMS = made("two lines", [(b"begin a", OK), (b"begin b", OK)])


def made_scripts():
    return [made("no line", []), long_lines(), bad_bytes(), *crowds(), *first_lines(), many_splits(), STREAMS]


# ----------------------------------------------------------------------------------------------------------------------
# Runs.


def run(script, words, text, **streams):
    """Runs the program over a text: its status, what it printed and said, and how much of the text it has read."""
    source = os.memfd_create("script")
    os.write(source, text)
    os.lseek(source, 0, os.SEEK_SET)
    setting = {f"STREAM_{name.upper()}": str(value) for name, value in streams.items()}
    if streams:
        setting["LD_PRELOAD"] = programs["streams"]
    try:
        done = subprocess.run(
            [programs[script.program], *words], stdin=source, capture_output=True, env=setting, timeout=60,
            pass_fds=[streams["log"]] if "log" in streams else [],
        )  # fmt: skip
        return done, os.lseek(source, 0, os.SEEK_CUR)
    finally:
        os.close(source)


def plays(script, words, how, **streams):
    text = script.text()
    done, count = run(script, words, text, **streams)
    for what, wanted, came in (
        ("printed", script.wanted(), done.stdout),
        ("said on standard error", script.errors, script.said(done.stderr)),
        ("status", script.status, done.returncode),
        ("bytes read", 0 if script.reads_nothing(words) else len(text), count),
    ):
        if wanted != came:
            script.differs(words, how, what, wanted, came)


def faults_of(script, words, **streams):
    """The records of all faults, one after the other, each with what was written and said."""
    log = os.memfd_create("log")
    try:
        run(script, words, script.text(), log=log, **streams)
        os.lseek(log, 0, os.SEEK_SET)
        with os.fdopen(os.dup(log), "rb") as file:
            return list(records_in(file.read()))
    finally:
        os.close(log)


def records_in(text):
    at = 0
    while at < len(text):
        input_at, output_at, status, count, written, said = RECORD.unpack_from(text, at)
        at += RECORD.size
        yield input_at, output_at, status, count, text[at : at + written], text[at + written : at + written + said]
        at += written + said


def ends_so(script, words, how, record, report, line):
    """The program has ended with status 1 and this line on standard error; it has written so much, and no more, and has
    read nothing after the fault."""
    input_at, output_at, status, count, written, said = record
    how = f"{how} after {input_at} bytes read and {output_at} written"
    for what, wanted, came in (
        ("printed", report, written),
        ("said on standard error", f"{script.program}: {line}\n".encode(), said),
        ("status", 1, os.waitstatus_to_exitcode(status)),
        ("bytes read", input_at, count),
    ):
        if wanted != came:
            script.differs(words, how, what, wanted, came)


def count_of(script, words, how, wanted, records):
    if wanted != len(records):
        script.differs(words, how, "calls that failed in turn", wanted, len(records))


def reads_fail(script, words, piece=1, error=EINTR):
    """After a read that fails the whole lines that were read are answered, and no more."""
    how = f"a read of {piece} bytes fails"
    records = faults_of(script, words, faults="reads", read=piece, error=error)
    count_of(script, words, how, -(-len(script.text()) // piece) + 1, records)
    for record in records:
        ends_so(script, words, how, record, script.answered(record[0]), "read fault")


def writes_fail(script, words, error=EIO, **sizes):
    """After a write that fails, or takes nothing, what was written is a beginning of the report."""
    report = script.wanted()
    records = faults_of(script, words, faults="writes", error=error, **{"write": 1, **sizes})
    if not sizes:
        count_of(script, words, "a write fails", len(report), records)
    for record in records:
        ends_so(script, words, "a write fails", record, report[: record[1]], "write fault")


def play(script):
    """All runs of a script; how many are not of pieces or faults."""
    for words in script.words:
        plays(script, words, "whole")
        if script.status == 0 and not script.reads_nothing(words):
            for piece in PIECES:
                plays(script, words, f"in pieces of {piece}", read=piece)
            if script.has_faults:
                reads_fail(script, words)
                writes_fail(script, words)
    return len(script.words)


# ----------------------------------------------------------------------------------------------------------------------
# Streams of other kinds.


def pieces_and_faults():
    """Reads of some lines before one that fails; writes of two bytes; and writes that take nothing."""
    for piece in (7, 8, 9, 16):
        reads_fail(STREAMS, [], piece)
        reads_fail(STREAMS, [], piece, EIO)
    writes_fail(STREAMS, [], read=8, write=2)
    writes_fail(STREAMS, [], 0)
    return 1


def ends(script, words, status, line, stdin=subprocess.DEVNULL, stdout=subprocess.PIPE, stderr=subprocess.PIPE):
    """The program ends so, with this line on standard error, and has printed nothing."""
    done = subprocess.run([programs[script.program], *words], stdin=stdin, stdout=stdout, stderr=stderr, timeout=60)
    if (done.returncode, done.stdout or b"", done.stderr) != (status, b"", line):
        script.differs(words, "over other streams", "end", (status, b"", line), done)


def other_streams():
    """A folder cannot be read, a full device not be written to. A fault that cannot be said has its status."""
    folder, full = os.open(HERE, os.O_RDONLY), os.open("/dev/full", os.O_WRONLY)
    crew = ["--crew", "1", "--rounds", "1"]
    ends(STREAMS, [], 1, b"gltool: read fault\n", stdin=folder)
    ends(STREAMS, [], 1, None, stdin=folder, stderr=full)
    ends(STREAMS, crew, 1, b"gltool: write fault\n", stdin=folder, stdout=full)
    os.close(folder)
    os.close(full)
    return 1


def as_much_as_may_be(piece):
    """A script as long as one may be is answered to its end."""
    script = Script(f"a script of {LONGEST} bytes", "run.py")
    done, count = run(script, [], b"begin a\n" * (LONGEST // 8), read=piece)
    wanted = b"ok\n" + b"no 16 NameTaken a\n" * (LONGEST // 8 - 1)
    came = (done.returncode, done.stderr, count, done.stdout == wanted)
    if came != (0, b"", LONGEST, True):
        script.differs([], f"in pieces of {piece}", "end", (0, b"", LONGEST, True), came)
    return 1


def too_much(line, report):
    """A script of more bytes ends there, and its whole lines are answered."""
    script = Script(f"a script of more than {LONGEST} bytes", "run.py")
    done, count = run(script, [], line * ((LONGEST + 65_536) // len(line)))
    wanted = (1, b"gltool: input too long\n", LONGEST + 1, True)
    came = (done.returncode, done.stderr, count, done.stdout == report)
    if came != wanted:
        script.differs([], f"lines {line}", "end", wanted, came)
    return 1


def the_largest_crew():
    """The most sessions and rounds that there can be are no bad words: the crew begins."""
    words = ["--crew", "128", "--rounds", "100000"]
    crew = subprocess.Popen([programs["gltool"], *words], stdout=subprocess.PIPE, stderr=subprocess.PIPE)
    try:
        crew.wait(0.2)
    except subprocess.TimeoutExpired:
        crew.kill()
        crew.communicate()
        return 1
    script = Script("the largest crew", "run.py")
    return script.differs(words, "for 0.2 seconds", "end", "it works", crew.communicate())


def other_runs():
    taken = b"ok\n" + b"no 16 NameTaken a\n" * (LONGEST // 8 - 1)
    yield pieces_and_faults
    yield other_streams
    yield the_largest_crew
    for piece in (4_096, 99_999):
        yield lambda piece=piece: as_much_as_may_be(piece)
    for line, report in ((b"#", b""), (b"\n", b""), (b"begin a\n", taken)):
        yield lambda line=line, report=report: too_much(line, report)


# ----------------------------------------------------------------------------------------------------------------------


def find_program(name):
    """The program that the environment names, or the proved one of this repository."""
    named = os.environ.get(name.upper())
    if named:
        return named
    if subprocess.run([TOP / "tools" / "build.sh", "--look", name]).returncode != 0:
        sys.exit(f"tests/scripts: there is no {name} newer than its sources: ./check builds it, or ./{name} --proved")
    return str(TOP / "crates" / name / "out" / name)


def compile_streams(folder):
    library = f"{folder}/streams.so"
    compiler = shlex.split(os.environ.get("CC", "cc"))
    words = ["-std=c11", "-Wall", "-Wextra", "-Werror", "-O2", "-shared", "-fPIC", "-o", library, HERE / "streams.c"]
    if subprocess.run([*compiler, *words]).returncode != 0:
        sys.exit("tests/scripts: streams.c does not compile")
    return library


def main(names):
    tasks = []
    pages = sorted(HERE.glob("*.transcript"))
    unknown = set(names) - {page.stem for page in pages}
    if unknown:
        sys.exit(f"tests/scripts: there is no page {unknown.pop()}")
    for page in pages:
        if not names or page.stem in names:
            tasks += [lambda script=script: play(script) for script in scripts_of(page)]
    if not names:
        for document in ("SCRIPT.md", "LOCKS.md"):
            tasks += [lambda script=script: play(script) for script in examples_of(TOP / "docs" / document)]
        tasks += [lambda script=script: play(script) for script in made_scripts()] + list(other_runs())
    with tempfile.TemporaryDirectory() as folder:
        programs["streams"] = compile_streams(folder)
        pool = ThreadPoolExecutor(os.cpu_count())
        try:
            counts = list(pool.map(lambda task: task(), tasks))
        finally:
            pool.shutdown(cancel_futures=True)
    print(f"tests/scripts: {sum(counts)} scripts, as wanted")


if __name__ == "__main__":
    programs.update({name: find_program(name) for name in ("gltool", "glpicture")})
    try:
        main(sys.argv[1:])
    except NotAsWanted as fault:
        sys.exit(f"tests/scripts: {fault}")
    except subprocess.TimeoutExpired as fault:
        sys.exit(f"tests/scripts: hangs: {shlex.join(fault.cmd)}")
