#!/usr/bin/env python3
"""Draws the rows of a journal's timeline from its text alone, and compares them with those that `timeline` gave, as letters or as SVG:
    bench/review/rows_of.py JOURNAL TIMELINE [Int_K=Unit.Object ..]
A line that fires has its handler on that object. Ends with 1 where a row differs, is missing, or is too much."""
import re
import sys
import xml.dom.minidom

RANKS = " dw=][x"  # of two letters at an entry the later one is shown
CLASSES = {"body": "body", "w": "wait", "d": "delay", "x": "refused"}


def bars_of(journal, handlers):
    """What is drawn: a letter, a lane, the first entry and the last, if there is one; and how many entries there are."""
    lines = open(journal, encoding="utf-8").read().splitlines()
    waits, bodies, delays, called = {}, {}, {}, {}
    bars = []

    def over(letters, lane, first, last):
        bars.append((letters, lane, first, last))

    def ends(actor, entry):
        lane, first = bodies[actor].pop()
        over("body", lane, first, entry)

    def freed(actor, entry):
        lane, first = waits.pop(actor)
        over("w", lane, first, entry)

    for entry, line in enumerate(lines, 1):
        asked, answer = line.split(" ", 1)[1].rsplit(" -> ", 1)
        actor, request = asked.split(" ", 1)
        words = request.split(" ")
        lane = "-"
        if words[0] == "call":
            lane = words[1]
        elif words[0] == "fire":
            lane = handlers.get(actor, "-")
        elif words[0] == "resume" and answer.startswith("refused"):
            lane = called[actor]
        if answer.startswith("refused"):
            over("x", (actor, lane), entry, entry)
        elif answer == "started":
            bodies.setdefault(actor, []).append(((actor, lane), entry))
        elif answer in ("queued", "suspended"):
            waits[actor] = ((actor, lane), entry)
            if answer == "queued":
                called[actor] = lane
        elif answer == "delayed":
            delays[actor] = entry
        elif answer == "woken" and actor in delays:
            over("d", (actor, "-"), delays.pop(actor), entry)
        elif answer.startswith("accepted") and words[0] == "call" and words[2] == "Set_True":
            for other in [one for one, (at, _) in waits.items() if at[1] == lane]:
                freed(other, entry)
        if words[0] == "end" and answer.startswith("done"):
            ends(actor, entry)
        named = re.match(r"done (handed|dropped) (\S+)", answer)
        if named:
            freed(named[2], entry)
            if named[1] == "handed":
                bodies.setdefault(named[2], []).append(((named[2], called[named[2]]), entry))
    for lane, first in waits.values():
        over("w", lane, first, None)
    for held in bodies.values():
        for lane, first in held:
            over("body", lane, first, None)
    for actor, first in delays.items():
        over("d", (actor, "-"), first, None)
    return bars, len(lines)


def rows_of(bars, count):
    """The row of each lane, by its name."""
    rows = {}
    for letters, lane, first, last in bars:
        row = rows.setdefault(" ".join(lane), [" "] * count)
        for entry in range(first, (last or count) + 1):
            letter = letters
            if letters == "body":
                letter = "[" if entry == first else "]" if entry == last else "="
            if RANKS.index(letter) > RANKS.index(row[entry - 1]):
                row[entry - 1] = letter
    return {name: "".join(row) for name, row in rows.items()}


def rows_in(timeline):
    """The rows of all blocks of a timeline, joined."""
    rows, behind, width = {}, 0, 0
    for line in open(timeline, encoding="utf-8"):
        if re.fullmatch(r"\|\d+\|\n", line):
            behind, width = behind + width, len(line) - 3
        elif line.startswith("|"):
            cells, name = line[1:width + 1], line[width + 3:-1]
            rows.setdefault(name, "")
            rows[name] = rows[name].ljust(behind) + cells
    return {name: row.ljust(behind + width) for name, row in rows.items()}


def drawn_of(bars, count):
    """The bars of each lane, by its name, as a picture has them."""
    drawn = {}
    for letters, lane, first, last in bars:
        drawn.setdefault(" ".join(lane), []).append((CLASSES[letters], first, max((last or count) - first, count // 600 + 1)))
    return {name: sorted(bars) for name, bars in drawn.items()}


def drawn_in(picture):
    """The bars of each lane of a picture."""
    drawn, name = {}, ""
    for node in xml.dom.minidom.parse(picture).documentElement.childNodes:
        if node.nodeName == "text":
            name = node.firstChild.data
        elif node.nodeName == "svg":
            rects = [one for one in node.childNodes if one.nodeName == "rect"]
            drawn[name] = sorted((one.getAttribute("class"), int(one.getAttribute("x")), int(one.getAttribute("width"))) for one in rects)
    return drawn


def main():
    handlers = dict(word.split("=") for word in sys.argv[3:])
    bars, count = bars_of(sys.argv[1], handlers)
    if open(sys.argv[2], encoding="utf-8").read(4) == "<svg":
        wanted, found = drawn_of(bars, count), drawn_in(sys.argv[2])
    else:
        wanted, found = rows_of(bars, count), rows_in(sys.argv[2])
    for name in sorted(set(wanted) | set(found)):
        if wanted.get(name) != found.get(name):
            print(f"{name}: wanted {wanted.get(name)!r}, found {found.get(name)!r}")
    sys.exit(wanted != found)


main()
