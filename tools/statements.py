#!/usr/bin/env python3
"""Checks docs/STATEMENTS.md: every file, name and must-fail edit that it names is there.

usage: python3 tools/statements.py [--check]     at the top of the repository

A table of sentences has three columns: the sentence, the definitions, and what shows them (theorem, computed example, contract, program, edit).
In all columns but the first, of these tables and of the others, what stands between backticks is one of these:

- a file, by its path from the top or from crates/; the names behind it, up to the next file or the end of the cell, are defined in it
- `NAME` or `RECORD.FIELD`, of the file before it
- `CRATE::MODULE::FUNCTION` or `CRATE::TYPE::METHOD`, of src/, which is looked up in the first column too
- `CRATE/LABEL`, a must-fail edit; the name of a crate

A table of three columns has no empty cell. Each name is printed with its line, its crate and its file; with --check the faults alone,
a line each. The exit status is 1 if there are faults.
"""

import os
import re
import sys

PAGE = "docs/STATEMENTS.md"
FILE = re.compile(r"(?:[\w.+-]+/)*[\w-]+\.(?:antt|rt|rs|py|sh|md)$|tools/[\w-]+$")
EDIT = re.compile(r"(\w+)/(\w+)$")
RUST = re.compile(r"\w+(?:::\w+)+$")
TYPED = re.compile(r"^\s*(?:(?:abbrev|unfoldable) )*(?:pub )?([^\W\d][\w'#-]*) :(?:\s|$)", re.M)
HEAD = re.compile(r"^( *)(?:pub )?(record|data) ([^\W\d][\w'-]*)", re.M)


class Files:
    """The files of the repository by path, each read when it is first asked for."""

    def __init__(self):
        self.texts = {}

    def path(self, said):
        """The path of a file that the page names, or nothing."""
        return next((path for path in (said, "crates/" + said) if os.path.isfile(path)), None)

    def text(self, path):
        """The text of a file."""
        if path not in self.texts:
            with open(path, encoding="utf-8") as file:
                self.texts[path] = file.read()
        return self.texts[path]

    def defines(self, path, name):
        """Whether a file defines a name, or a record of it has a field."""
        text, (record, _, field) = self.text(path), name.partition(".")
        if path.endswith((".rt", ".rs", ".py")):
            return re.search(rf"\b(?:fn|struct|enum|type|const|def|class|mod) {re.escape(name)}\b", text) is not None
        if not field:
            return name in TYPED.findall(text) or name in [head[3] for head in HEAD.finditer(text)]
        return any(head[3] == record and field in TYPED.findall(block(text, head)) for head in HEAD.finditer(text))

    def rust(self, said):
        """The file of a function, type or method of src/, by crate, module or type, and name; or nothing."""
        crate, *middle, name = said.split("::")
        for path in self.sources(crate):
            text = self.text(path)
            module = [part for part in path.split("/src/")[1].removesuffix(".rt").split("/") if part != "lib"]
            stands_here = re.search(rf"\bimpl(?:<[^>]*>)? {middle[0]}\b", text) if middle and middle[0][0].isupper() else module == middle
            if stands_here and self.defines(path, name):
                return path
        return None

    def sources(self, crate):
        """The files of a crate's src/, in order."""
        return sorted(os.path.join(top, name) for top, _, names in os.walk(f"crates/{crate}/src") for name in names if name.endswith(".rt"))


def block(text, head):
    """The text of a record or a data type: its head, and all lines behind it that stand deeper."""
    lines = text[head.start() :].split("\n")
    end = next((at for at, line in enumerate(lines) if at and line.strip() and not line.startswith(head[1] + "  ") and not line.strip().startswith(")")), len(lines))
    return "\n".join(lines[1:end])


def cells(line):
    """The cells of a line of a table."""
    return [cell.strip() for cell in re.split(r"(?<!\\)\|", line.strip())[1:-1]]


def rows(text):
    """The rows of all tables: line number, and the cells whose names are checked."""
    inside = False
    for number, line in enumerate(text.split("\n"), 1):
        found = cells(line) if line.startswith("|") else []
        if inside and found and not set("".join(found)) <= set("-:"):
            yield number, [" ".join(re.findall(r"`\w+::[\w:]+`", found[0])), *found[1:]]
        inside = bool(found)


def looked_up(files, cell):
    """Of each thing between backticks in a cell: itself, its file or crate, or nothing, and what is then wrong with it."""
    here = None
    for said in re.findall(r"`([^`]*)`", cell):
        if FILE.match(said):
            here = files.path(said)
            yield said, here, "no such file"
        elif EDIT.match(said):
            yield said, files.path("%s/must-fail/%s.edit" % EDIT.match(said).groups()), "no such edit"
        elif RUST.match(said):
            yield said, files.rust(said), "no such function or type"
        elif here and files.defines(here, said):
            yield said, here, ""
        elif os.path.isdir(f"crates/{said}"):
            yield said, f"crates/{said}", ""
        else:
            yield said, None, f"not defined in {here}" if here else "no file before it"


def faults_of(files, number, checked, quiet):
    """How many faults a row has; each is printed, and if wanted each name that is there with its crate and file."""
    faults = int(len(checked) == 3 and not all(checked[1:]))
    if faults:
        print(f"{PAGE}:{number}: an empty cell")
    for said, where, wrong in (found for cell in checked for found in looked_up(files, cell)):
        if where is None:
            faults += 1
            print(f"{PAGE}:{number}: `{said}`: {wrong}")
        elif not quiet:
            print(f"{number}\t{where.split('/')[1] if where.startswith('crates/') else '-'}\t{where}\t{said}")
    return faults


def main():
    """Looks all names up, and says what was found."""
    files, quiet = Files(), "--check" in sys.argv[1:]
    return int(sum(faults_of(files, number, checked, quiet) for number, checked in rows(files.text(PAGE))) > 0)


if __name__ == "__main__":
    sys.exit(main())
