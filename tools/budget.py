#!/usr/bin/env python3
"""budget.py FILE COMMAND WORD..: runs the command, and writes what the proofs below it took to the file: a line for
each crate and kind of work (`proof`, `tests`, `edits`, and `seed`, the proof over which its edits are tried), with the
number of runs of the prover, their processor seconds and the most memory of one of them in megabytes, parted by tabs.
Ends with the command's status. It looks once a second, so each figure may lack a second a run."""

import os
import signal
import subprocess
import sys
import threading

TICKS = os.sysconf("SC_CLK_TCK")


def text_of(path):
    """What a file of /proc says; nothing where the process has ended."""
    try:
        with open(path, "rb") as file:
            return file.read()
    except OSError:
        return b""


def parents():
    """The parent of each process that runs now."""
    found = {}
    for name in os.listdir("/proc"):
        if name.isdigit():
            fields = text_of(f"/proc/{name}/stat").rpartition(b")")[2].split()
            if fields:
                found[int(name)] = int(fields[1])
    return found


def words_of(pid):
    return [it.decode(errors="replace") for it in text_of(f"/proc/{pid}/cmdline").split(b"\0")]


def is_below(pid, top, parent_of):
    while pid > 1 and pid != top:
        pid = parent_of.get(pid, 0)
    return pid == top


def work_of(words):
    """The crate that a run of the prover works on, and the kind of work; None for every other process."""
    if len(words) < 2 or os.path.basename(words[0]) != "rattle" or words[1] not in ("build", "check"):
        return None
    if "--crate-name" not in words or "--crate-checked" in words:
        return None
    crate = words[words.index("--crate-name") + 1]
    if "--incremental" in words:
        over = os.path.basename(words[words.index("--incremental") + 1])
        return crate, "seed" if over == "seed" else "edits"
    return crate, "tests" if "--test" in words else "proof"


class Runs:
    """The runs of the prover below a process, as far as they were seen."""

    def __init__(self):
        self.seen = {}

    def look(self, top):
        parent_of = parents()
        works = {pid: work_of(words_of(pid)) for pid in parent_of}
        for pid, work in works.items():
            # Processes that a run of the prover starts are counted with that run.
            if not work or works.get(parent_of[pid]) or not is_below(pid, top, parent_of):
                continue
            fields = text_of(f"/proc/{pid}/stat").rpartition(b")")[2].split()
            most = [it.split()[1] for it in text_of(f"/proc/{pid}/status").splitlines() if it.startswith(b"VmHWM:")]
            if fields:
                seconds = sum(map(int, fields[11:15])) / TICKS
                self.seen[pid, fields[19]] = work, seconds, int(most[0]) / 1024 if most else 0

    def sums(self):
        rows = {}
        for work, seconds, memory in self.seen.values():
            runs, all_seconds, most = rows.get(work, (0, 0, 0))
            rows[work] = runs + 1, all_seconds + seconds, max(most, memory)
        return rows


def main(file, *command):
    runs, ended = Runs(), threading.Event()
    process = subprocess.Popen(command)
    for number in (signal.SIGTERM, signal.SIGINT, signal.SIGHUP):
        signal.signal(number, lambda number, _: process.send_signal(number))
    threading.Thread(target=lambda: (process.wait(), ended.set()), daemon=True).start()
    while not ended.wait(1):
        runs.look(process.pid)
    with open(file, "w", encoding="utf-8") as out:
        for (crate, kind), (number, seconds, most) in sorted(runs.sums().items()):
            out.write(f"{crate}\t{kind}\t{number}\t{seconds:.0f}\t{most:.0f}\n")
    return process.returncode if process.returncode >= 0 else 128 - process.returncode


if __name__ == "__main__":
    if len(sys.argv) < 3:
        sys.exit(__doc__)
    sys.exit(main(*sys.argv[1:]))
