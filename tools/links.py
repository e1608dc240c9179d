#!/usr/bin/env python3
"""links.py: looks at each link of the documents that leads into this repository. Prints those that lead nowhere, with
their page and line, and then ends with status 1; else it prints how many there are."""

import re
import sys
from pathlib import Path

TOP = Path(__file__).resolve().parent.parent
LINK = re.compile(r"\]\(([^)\s]+)\)")


def pages():
    return [it for it in sorted(TOP.rglob("*.md")) if not {"out", ".git"} & set(it.relative_to(TOP).parts)]


def anchors(page):
    """The names by which links reach the headings of a page."""
    heads = re.findall(r"(?m)^#+ (.*)$", re.sub(r"(?ms)^```.*?^```", "", page.read_text(encoding="utf-8")))
    return {re.sub(r"[^\w\- ]", "", it.lower()).replace(" ", "-") for it in heads}


def leads_nowhere(page, target):
    path, _, anchor = target.partition("#")
    there = (page.parent / path).resolve() if path else page
    if not there.exists():
        return True
    return bool(anchor) and (there.suffix != ".md" or anchor not in anchors(there))


def main():
    count, lost = 0, []
    for page in pages():
        for number, line in enumerate(page.read_text(encoding="utf-8").split("\n"), 1):
            for target in LINK.findall(line):
                if re.match(r"[a-z]+:", target):
                    continue
                count += 1
                if leads_nowhere(page, target):
                    lost.append(f"{page.relative_to(TOP)}:{number}: {target}")
    print("\n".join(lost) or f"{count} links")
    return 1 if lost else 0


if __name__ == "__main__":
    sys.exit(main())
