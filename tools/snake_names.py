#!/usr/bin/env python3
"""Brings the definitions and lemmas of this repository to snake case.

usage: python3 tools/snake_names.py [--table]     at the top of the repository, once, right after the port of the spelling

A word in camel case gets underscores: `firstLeast` becomes `first_least`. In a lemma's name a dash joins two names, as in
`length-numbers`, and stays there; a plain word is added by an underscore, as in `take_later`. A lemma that would meet another name of
the repository gets `_lem`. It turns the .antt and .rt files and the must-fail edits of crates/, and the code spans of the pages; functions of src/,
exported names, strings, inputs and outputs stay. With --table it writes nothing and prints old and new name of each.
"""

import collections
import os
import re
import sys

NAME = re.compile(r"(\.?)([^\s(){}.;,@\"«»◌`]+)")
DECLARED = re.compile(r"^( *)((?:[a-z]+ )*)([^\s(){}.;,@\"«»◌]+)((?: \{[^{}\n]*\}| \([^()\n]*\))*) :(?: |$)(.*)")
RECORD = re.compile(r"^( *)(?:\w+ )*record (?:pub )?([^\s(){}]+)")
USED = re.compile(r"^\s*(?:pub )?(?:ghost )?use ([\w.+]+?)\.\{([^}]*)\}", re.M)
CAMEL = re.compile(r"^[a-z][a-zA-Z0-9]*[A-Z][a-zA-Z0-9]*(?=$|[₀-₉'])")
RENAMED = {"getD": "get_or"}
FIELDS = {"branch-count": "branches_counted"}
SUFFIXES = {"mem", "append", "cons", "nil", "snoc", "map", "zero", "suc", "take", "drop", "set", "head", "tail", "pure"}


def files(endings):
    for top, folders, names in os.walk("crates"):
        folders[:] = sorted(f for f in folders if f not in ("out", "target"))
        for name in sorted(names):
            if name.endswith(endings):
                yield os.path.join(top, name)


def read(path):
    with open(path, encoding="utf-8") as f:
        return f.read()


def without_comments(text):
    return re.sub(r"--[^\n]*", "", text)


def snake(word):
    """A word of letters: underscores for capitals, but for the capital of a type at its head."""
    if word in RENAMED:
        return RENAMED[word]
    if not CAMEL.match(word):
        return word
    return re.sub(r"(?<=[a-z0-9])([A-Z]+)", lambda m: "_" + m[1].lower(), word)


def fields_of(text):
    """The fields that records of a file declare."""
    lines, found, depth = text.split("\n"), set(), None
    for line in lines:
        head = RECORD.match(line)
        if head:
            depth = len(head[1])
            continue
        if depth is None or not line.strip():
            continue
        if len(line) - len(line.lstrip()) <= depth and not line.strip().startswith(")"):
            depth = None
            continue
        field = re.match(r"^ +(?:pub )?([^\s(){}.;,@\"«»◌]+) :(?: |$)", line)
        if field:
            found.add(field[1])
    return found


class Names:
    """What the repository declares and what it brings in from libraries."""

    def __init__(self):
        self.declared, self.functions, self.fields, self.foreign, self.words = set(), set(), set(), set(), set()
        crates = set(os.listdir("crates"))
        for path in files((".antt",)):
            text = without_comments(read(path))
            self.fields |= fields_of(text)
            self.words |= {m[2] for m in NAME.finditer(text)}
            for line in text.split("\n"):
                d = DECLARED.match(line)
                if not d or re.search(r"\b(let|where|in)\b", d[2]):
                    continue
                if re.match(r"(tie|goal)\.", d[5]):
                    continue
                self.declared.add(d[3])
                if "/specs/" in path:
                    self.functions.add(d[3])
        for path in files((".antt", ".rt")):
            for module, items in USED.findall(read(path)):
                parts = module.split(".")
                own = parts[0] == "Rattle" and len(parts) > 1 and parts[1] in crates
                for item in items.split(","):
                    name = item.strip().split(" as ")[0]
                    if not own:
                        self.foreign.add(name)
        self.known = {snake(f) for f in self.functions} | {f for f in self.foreign if re.match(r"^[a-z_]+$", f)}


def joined(name, names):
    """A dashed name in the new spelling."""
    parts = [snake(p) for p in name.split("-")]
    if name in names.fields:
        return FIELDS.get(name, "_".join(parts))
    for cut in range(1, len(parts)):
        left, right = "_".join(parts[:cut]), "_".join(parts[cut:])
        if left in names.known and (right in names.known or right in SUFFIXES):
            return left + "-" + right
    return "_".join(parts)


def table(names):
    old_words = set(names.words)
    turned = {}
    for word in sorted(old_words):
        if CAMEL.match(word) and "-" not in word and word not in names.foreign:
            turned[word] = snake(word)
    taken = (old_words - set(turned)) | set(turned.values())
    for word in sorted(names.declared | names.fields):
        if "-" not in word or word in names.foreign or not re.match(r"^[A-Za-z]", word):
            continue
        new = joined(word, names)
        if new == word:
            continue
        for candidate in (new, new + "_lem", word):
            if candidate not in taken:
                new = candidate
                break
        else:
            continue
        taken.add(new)
        turned[word] = new
    return turned


def turn(text, turned, names):
    def one(m):
        dot, word = m[1], m[2]
        if word not in turned:
            return m[0]
        if dot and "-" in word and word not in names.fields:
            return m[0]
        return dot + turned[word]

    return NAME.sub(one, text)


def spans(text, turned, names):
    """The code spans and blocks of a page."""
    return re.sub(r"```.*?```|`[^`\n]*`", lambda m: turn(m[0], turned, names), text, flags=re.S)


def main(argv):
    names = Names()
    turned = table(names)
    if argv == ["--table"]:
        for old in sorted(turned):
            print(old + "\t" + turned[old])
        return 0
    for path in files((".antt", ".rt", ".edit")):
        text = read(path)
        new = turn(text, turned, names)
        if new != text:
            with open(path, "w", encoding="utf-8") as f:
                f.write(new)
    pages = ["README.md", "CONTRIBUTING.md"] + ["docs/" + f for f in sorted(os.listdir("docs")) if f.endswith(".md")]
    for path in pages:
        text = read(path)
        new = spans(text, turned, names)
        if new != text:
            with open(path, "w", encoding="utf-8") as f:
                f.write(new)
    print(f"{len(turned)} names turned")
    return 0


if __name__ == "__main__":
    raise SystemExit(main(sys.argv[1:]))
