#!/usr/bin/env python3
"""Writes the table of refusals into README.md, from tools/script/refusals.tsv, whose words the script wagner-list says.

usage: python3 tools/refusals.py [--check]     at the top of the repository

With --check nothing is written, and the exit status is 1 if the table in README.md is not what would be written.
"""

import re
import sys

WORDS = "tools/script/refusals.tsv"
PAGE = "README.md"
HEAD = "| Number | Line | What was wanted |\n|---|---|---|\n"


def table():
    """The table, a row for each refusal, in the order in which the questions are asked."""
    with open(WORDS, encoding="ascii") as lines:
        rows = [line.rstrip("\n").split("\t") for line in lines]
    return HEAD + "".join(f"| {' | '.join(row)} |\n" for row in rows[1:])


def main():
    with open(PAGE, encoding="utf-8") as file:
        page = file.read()
    found = re.findall(re.escape(HEAD) + r"(?:\|.*\n)*", page)
    if len(found) != 1:
        sys.exit(f"{PAGE} has {len(found)} tables that begin as the one of refusals does, and one is wanted")
    if sys.argv[1:] == ["--check"]:
        sys.exit(f"{PAGE}: the table of refusals is not that of {WORDS}: python3 tools/refusals.py" if found[0] != table() else 0)
    with open(PAGE, "w", encoding="utf-8") as file:
        file.write(page.replace(found[0], table()))


if __name__ == "__main__":
    main()
