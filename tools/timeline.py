#!/usr/bin/env python3
"""timeline.py [WORD..] SCRIPT: draws a script of lock commands as one SVG, on standard output. Each transaction has a
row, with a bar for each node that it holds or waits for, from left to right by commands: solid while it holds the node,
in the colour and with the name of its mode, and hatched while it waits. A dotted line leads from the begin of a wait to
each transaction that is in its way. A cross marks a victim, a full dot a commit, an empty one an abort; a refused line
is red. The words are those of gltool, which plays the script; GLTOOL names another than the one of this repository.
Ends with gltool's status if it fails, and with 1 if the script begins no transaction."""
import os
import re
import subprocess
import sys
from html import escape

TOP = os.path.dirname(os.path.dirname(os.path.realpath(__file__)))
COLOURS = {"IS": "#cfe3f7", "IX": "#f6dcb4", "S": "#7fb2e5", "SIX": "#c9a3dc", "X": "#e0803c"}
# In pixels: a command's width, a bar's height, what is between bars and left of them, a letter's width, and a digit's.
STEP, BAR, GAP, LEFT, TEXT, WIDE = 34, 15, 3, 96, 7, 8
LONGEST = 60  # letters of a command that are drawn
ROW = re.compile(r"(holder|waiter|lock|blocker|txn|stuck|told|victim) ")


class Step:
    """A command with its answer, and by transaction what it does, its locks (node, mode, wanted) and who is in its way."""

    def __init__(self, line, answer):
        self.line, self.answer = line, answer
        self.label = line if len(line) <= LONGEST else f"{line[:LONGEST - 1]}…"
        self.doing, self.locks, self.blockers = {}, {}, {}


def is_command(line):
    """Whether gltool answers a line: an empty one and a comment have no answer, unless that is too long to be one."""
    return len(line.encode(errors="surrogateescape")) > 256 or (line != "" and not line.startswith("#"))


def shown(text):
    """A text with all that an SVG may not have or show as a question mark."""
    return escape("".join(it if it.isprintable() else "?" for it in text))


def questions(names):
    """The listings that are asked after each command."""
    return ["txns"] + [f"{ask} {name}" for name in names for ask in ("locks", "waits")]


def asked(script):
    """The script with its questions between the commands: each line, with the step that it belongs to, if it has one."""
    lines, names, count = [], [], 0
    for line in script:
        lines.append((line, None))
        if not is_command(line):
            continue
        lines[-1] = (line, count)
        begun = re.fullmatch(r"begin ([a-z][a-z0-9_]*)( again [0-9]+)?", line)
        if begun and begun.group(1) not in names:
            names.append(begun.group(1))
        lines += [(it, count) for it in questions(names)]
        count += 1
    return lines, names


def played(lines, words):
    """What gltool answers to each line that has an answer: that, and the rows below it."""
    tool = os.environ.get("GLTOOL", f"{TOP}/gltool")
    words = ["--listings"] + [it for it in words if it != "--listings"]
    script = "".join(f"{line}\n" for line, _ in lines).encode(errors="surrogateescape")
    ran = subprocess.run([tool, *words], input=script, capture_output=True)
    ran.stdout, ran.stderr = ran.stdout.decode(errors="replace"), ran.stderr.decode(errors="replace")
    if ran.returncode != 0:
        sys.stderr.write(ran.stderr)
        sys.exit(ran.returncode)
    answers = []
    for line in ran.stdout.split("\n")[:-1]:
        if ROW.match(line):
            answers[-1][1].append(line.split())
        else:
            answers.append((line, []))
    return answers


def steps_of(lines, answers):
    steps, answers = [], iter(answers)
    for line, number in lines:
        if number is None:
            continue
        answer, rows = next(answers)
        if len(steps) <= number:
            steps.append(Step(line, answer))
            continue
        kind, _, name = line.partition(" ")
        if kind == "txns":
            steps[-1].doing = {row[1]: row[3] for row in rows}
        elif kind == "locks":
            steps[-1].locks[name] = [(row[2], row[1], row[6] if len(row) > 6 else None) for row in rows]
        else:
            steps[-1].blockers[name] = [row[1] for row in rows]
    return steps


def bars_of(steps, name):
    """The bars of a transaction, in lanes by node: (lane, first step, step after the last, text, mode or None)."""
    lanes, bars, now = [], [], {}
    for at, step in enumerate(steps):
        shown = {}
        for node, mode, wanted in step.locks.get(name, []):
            if mode != "NL":
                shown[node, "held"] = mode
            if wanted:
                shown[node, "waits"] = wanted
        for key, (begun, mode) in list(now.items()):
            if shown.get(key) != mode:
                bars.append((key, begun, at, mode))
                del now[key]
        for key, mode in shown.items():
            now.setdefault(key, (at, mode))
            if key[0] not in lanes:
                lanes.append(key[0])
    bars += [(key, begun, len(steps), mode) for key, (begun, mode) in now.items()]
    return lanes, bars


class Drawing:
    def __init__(self):
        self.parts = []

    def add(self, text):
        self.parts.append(text)

    def text(self, x, y, text, more=""):
        self.add(f'<text x="{x}" y="{y}" {more}>{shown(text)}</text>')


def draw(steps, names):
    top = WIDE * max(len(step.label) for step in steps) * 2 // 3 + 20
    drawing, y, heights, rows = Drawing(), top, {}, {}
    for name in names:
        lanes, bars = bars_of(steps, name)
        heights[name] = y
        rows[name] = (y, lanes, bars)
        y += max(len(lanes), 1) * (BAR + GAP) + 14
    # A command's text leads up and to the right: four fifths of its length.
    width = LEFT + max(STEP * at + 16 + WIDE * len(step.label) * 4 // 5 for at, step in enumerate(steps))
    width, height = max(width, LEFT + STEP * len(steps) + 40), y + 10
    drawing.add(f'<svg xmlns="http://www.w3.org/2000/svg" viewBox="0 0 {width} {height}" width="{width}" height="{height}" '
                'font-family="sans-serif" font-size="11">')
    drawing.add('<defs><pattern id="waits" width="6" height="6" patternUnits="userSpaceOnUse" patternTransform="rotate(45)">'
                '<rect width="6" height="6" fill="#fff"/><rect width="2" height="6" fill="#888"/></pattern></defs>')
    drawing.add(f'<rect width="{width}" height="{height}" fill="#fff"/>')
    for at, step in enumerate(steps):
        x = LEFT + STEP * at
        refused = ' fill="#b00" font-weight="bold"' if step.answer.startswith("no ") else ""
        drawing.add(f'<g><title>{shown(f"{step.line}: {step.answer}")}</title>')
        drawing.text(x + 8, top - 12, step.label, f'transform="rotate(-40 {x + 8} {top - 12})"{refused}')
        drawing.add(f'<line x1="{x}" y1="{top - 8}" x2="{x}" y2="{height - 8}" stroke="#eee"/></g>')
    for name, (y, lanes, bars) in rows.items():
        draw_row(drawing, steps, name, y, lanes, bars, width)
    for name in names:
        draw_ways(drawing, steps, name, rows)
    drawing.add("</svg>")
    return "\n".join(drawing.parts)


def word_in(room, words):
    """The first of these words that has room."""
    return next((word for word in words if TEXT * len(word) <= room), "")


def draw_row(drawing, steps, name, y, lanes, bars, width):
    drawing.text(8, y + 12, name, f'font-weight="bold" font-size="{min(13, 136 // len(name))}"')
    for (node, kind), begun, ended, mode in bars:
        x, above = LEFT + STEP * begun, y + lanes.index(node) * (BAR + GAP)
        later = [LEFT + STEP * other[1] for other in bars if other[0][0] == node and other[1] > begun]
        size = max(STEP * (ended - begun) - 2, 4)
        held = kind == "held"
        word = f"{node} {mode}" if held else f"{node} waits {mode}"
        fill, inset = (COLOURS[mode], 0) if held else ("url(#waits)", 3)
        drawing.add(f'<g class="{kind}"><title>{shown(f"{name}: {word}")}</title><rect x="{x}" y="{above + inset}" width="{size}" '
                    f'height="{BAR - 2 * inset}" fill="{fill}" stroke="#555" stroke-width="0.6"/>')
        label = word_in(min(later, default=width) - x - 3, [word, f"{node} {mode}", mode])
        drawing.text(x + 3, above + 11, label, 'paint-order="stroke" stroke="#fff" stroke-width="2.5"')
        drawing.add("</g>")
    was = None
    for at, step in enumerate(steps):
        is_now = step.doing.get(name)
        x = LEFT + STEP * at
        if is_now == "condemned" and was != "condemned":
            drawing.text(x - 11, y + 13, "✕", 'class="victim" fill="#b00" font-size="15" font-weight="bold"')
        if was and not is_now:
            fill = "#333" if step.line.startswith("commit") else "#fff"
            drawing.add(f'<circle class="end" cx="{x + 5}" cy="{y + 7}" r="4.5" fill="{fill}" stroke="#333"/>')
        was = is_now


def draw_ways(drawing, steps, name, rows):
    """From the begin of each wait, and of each change of it, to those that are in its way."""
    y, lanes, _ = rows[name]
    seen = set()
    for at, step in enumerate(steps):
        waits = {node for node, _, wanted in step.locks.get(name, []) if wanted}
        ways = {(node, other) for node in waits for other in step.blockers.get(name, [])}
        for node, other in sorted(ways - seen):
            if other not in rows:
                continue
            to, others, _ = rows[other]
            x = LEFT + STEP * at + 6
            begun = y + lanes.index(node) * (BAR + GAP) + BAR // 2
            ended = to + (others.index(node) if node in others else 0) * (BAR + GAP) + BAR // 2
            drawing.add(f'<path class="way" d="M{x} {begun} L{x + 9} {ended}" stroke="#b00" stroke-dasharray="2 2" fill="none"/>'
                        f'<circle cx="{x + 9}" cy="{ended}" r="2.5" fill="#b00"/>')
        seen = ways


def main():
    words = sys.argv[1:]
    if words in (["--help"], ["-h"]):
        print(__doc__)
        return 0
    with open(words.pop(), encoding="utf-8", errors="surrogateescape", newline="\n") as source:
        script = source.read().split("\n")
    lines, begun = asked(script)
    steps = steps_of(lines, played(lines, words))
    names = [name for name in begun if any(step.line == f"begin {name}" and not step.answer.startswith("no ") for step in steps)]
    if not names:
        print("glpicture: the script begins no transaction", file=sys.stderr)
        return 1
    print(draw(steps, names))
    return 0


if __name__ == "__main__":
    sys.exit(main())
