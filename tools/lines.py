#!/usr/bin/env python3
"""lines.py: looks at each line of the crates' code, contracts and proofs. Prints where one has more than 160 columns,
and then ends with status 1; else it prints how many there are."""

import sys
from pathlib import Path

TOP = Path(__file__).resolve().parent.parent
MOST = 160


def sources():
    return [it for it in sorted((TOP / "crates").rglob("*")) if it.suffix in (".rt", ".antt") and "out" not in it.relative_to(TOP).parts]


lines, long = 0, 0
for path in sources():
    for number, line in enumerate(path.read_text(encoding="utf-8").split("\n"), 1):
        lines += 1
        if len(line) > MOST:
            long += 1
            print(f"{path.relative_to(TOP)}:{number}: {len(line)} columns")
if long:
    sys.exit(1)
print(f"{lines} lines, none of more than {MOST} columns")
