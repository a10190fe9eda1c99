#!/usr/bin/env python3
"""Writes the counted parts of docs/DESIGN-PASS.md again, for the working tree; what stands there in words is left as it is.

usage: python3 tools/design_page.py     at the top of the repository

The commit at which the pass began is the first line of the page.
"""

import collections
import re
import subprocess

import design_counts as counts

PAGE = "docs/DESIGN-PASS.md"
POINTS = {
    "1": "own Option and Result, flags, numbers for kinds",
    "2": "twins",
    "3": "loops counted by hand",
    "4": "equality, order, conversion, values by hand",
    "5": "facts and parameters that travel together",
    "6": "counts beside arrays, parallel lists, slices by start and end",
    "7": "switches",
    "8": "proofs that repeat",
}


def printed(*words):
    """What one of the scripts prints."""
    return subprocess.run(["python3", *words], capture_output=True, text=True, check=True).stdout.strip()


def by_point(rows):
    """The table of the points, from that of the kinds."""
    sums = collections.defaultdict(lambda: [0, 0, 0, 0])
    for row in rows:
        cells = [c.strip() for c in row.strip("|").split("|")]
        for i in range(4):
            sums[cells[0][0]][i] += int(cells[2 + i])
    lines = [f"| {p} {POINTS[p]} | " + " | ".join(str(n) for n in sums[p]) + " |" for p in POINTS]
    return "\n".join(["| Point | Places found | Changed | Kept with a reason | Still to do |", "|---|--:|--:|--:|--:|"] + lines)


def left(files):
    """The table of what is left without a reason."""
    places = [p for p in counts.places(files) if not counts.has_reason(p, files)]
    lines = ["| Kind | What is counted | Where |", "|---|---|---|"]
    for kind, words in counts.KINDS.items():
        found = collections.Counter(p.crate for p in places if p.kind == kind)
        if found:
            lines.append(f"| {kind} | {words} | " + ", ".join(f"{c} {n}" for c, n in sorted(found.items())) + " |")
    return "\n".join(lines)


def kept(files):
    """The table of the comments beside kept places."""
    lines = [f"| `{path}:{number}` | {reason} |" for path, number, reason in counts.reasons(files)]
    return len(lines), "\n".join(["| Place | Reason |", "|---|---|"] + [line.replace("\\|", "|") for line in lines])


def main():
    """Writes the page."""
    with open(PAGE, encoding="utf-8") as f:
        page = f.read()
    commit = page.split("\n", 1)[0]
    short = commit[:7]
    head = page[: page.index("## The points, whole")]
    words = page[page.index("### What became of them") : page.index("## Kept places")].rstrip()
    kinds = printed("tools/design_counts.py", commit, "--points")
    files = counts.sources(None)
    many, reasons = kept(files)
    parts = [
        "## The points, whole",
        "Found when the pass began, changed since (found less those that stand now), kept with a reason beside the place, left without one,\n"
        f"by kind, as `python3 tools/design_counts.py {short} --points` prints it; the sums by point end this page:",
        kinds,
        "### Left without a reason, by crate",
        left(files),
        words,
        "## Kept places",
        f"{many} comments say why a place stays, as `python3 tools/design_counts.py --reasons` prints them:",
        reasons,
        "## What changed, old and new",
        f"As `python3 tools/design_changes.py {short} --markdown` prints it. Items are compared word by word, so one whose types or imports are\n"
        "spelled otherwise is a row here too. Theorems are those that a page of the repository names.",
        printed("tools/design_changes.py", commit, "--markdown"),
        "## The points",
        by_point([r for r in kinds.split("\n") if re.match(r"\| \d\w", r)]),
    ]
    with open(PAGE, "w", encoding="utf-8") as f:
        f.write(head + "\n\n".join(parts) + "\n")


if __name__ == "__main__":
    main()
