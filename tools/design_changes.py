#!/usr/bin/env python3
"""Puts the public functions, types, definitions and theorems of a commit beside those of the working tree, where they differ.

usage: python3 tools/design_changes.py COMMIT [--markdown]     at the top of the repository

Functions: each `pub fn` of src/, with its parameters, result and clauses. Types: each `pub struct` and `pub enum`, with its derives and ghost
fields. Definitions: each item of specs/. Theorems: each statement of proofs/ whose name a page of the repository writes as code. Edits: what
each must-fail edit changes. Items are matched by crate and name, by file too where a crate has a name twice, and compared word by word; what went has no
new text, what is new no old one.
"""

import collections
import glob
import re
import subprocess
import sys

from design_text import files_of

ENDINGS = (".rt", ".antt", ".edit")
FUNCTION = re.compile(r"^ *pub (?:extern \"C\" )?fn (\w+)", re.M)
TYPE = re.compile(r"^pub (?:struct|enum) (\w+)", re.M)
HEAD = re.compile(r"^(?:(?:pub|unfoldable|abbrev|data|record) )+([^\s(){}]+)")
THEOREM = re.compile(r"^( *)pub ([^\s(){}:]+)((?: \{[^{}\n]*\}| \([^()\n]*\))*) : ", re.M)


def words(text):
    """A text in one line, without comments."""
    return " ".join(re.sub(r"(?://|--)[^\n]*", "", text).split())


def functions(text):
    """Name, with the type of its impl, and head of each public function of a file."""
    for found in FUNCTION.finditer(text):
        impls = re.findall(r"^impl(?:<[^>]*>)? (?:[^\n{]* for )?(\w+)", text[: found.start()], re.M)
        inside = text[found.start()] == " " and impls
        end = re.compile(r"^ *\{$|\) -> [^\n]* \{$|\) \{$", re.M).search(text, found.start())
        head = text[found.start() : end.end()].rstrip("{").strip() if end else found[0]
        yield (f"{impls[-1]}::" if inside else "") + found[1], words(head)


def types(text):
    """Name and text of each public type of a file."""
    for found in TYPE.finditer(text):
        before = text[: found.start()].rsplit("\n\n", 1)[-1]
        derives = " ".join(line for line in before.split("\n") if line.startswith("#["))
        end = text.find("\n}", found.start())
        one_line = text.find(";\n", found.start())
        stop = one_line + 1 if 0 <= one_line < end or end < 0 else end + 2
        yield found[1], words(derives + " " + text[found.start() : stop])


def definitions(text):
    """Name and text of each definition of a file of specs/."""
    for block in re.split(r"\n\s*\n", re.sub(r"^ *--[^\n]*\n", "", text, flags=re.M)):
        head = HEAD.match(block.strip())
        if head and not block.startswith(("use ", "pub use ", "pub mod ", "mod ")):
            yield head[1], words(block)


def theorems(text, named):
    """Name and statement of each theorem of a file of proofs/ that a page names."""
    for found in THEOREM.finditer(text):
        name = found[2]
        if name not in named:
            continue
        paragraph = text[found.start() :].split("\n\n")[0]
        end = re.compile(rf"^ *(?:unfolding |{re.escape(name)}[ \n])", re.M).search(paragraph, len(found[0]))
        if end:
            yield name, words(paragraph[: end.start()])


def items(files, named):
    """What a tree holds, by kind: crate and name, and the text of each file that has the name."""
    found = {kind: collections.defaultdict(dict) for kind in ("Functions", "Types", "Definitions", "Theorems", "Edits")}
    for path, text in sorted(files.items()):
        _, crate, place, *_ = path.split("/")
        file = path.split("/", 3)[3].rsplit(".", 1)[0]
        if place == "src":
            kinds = [("Functions", functions(text)), ("Types", types(text))]
        elif place == "specs":
            kinds = [("Definitions", definitions(text))]
        elif place == "proofs":
            kinds = [("Theorems", theorems(text, named))]
        else:
            kinds = [("Edits", [(file, " ".join(text.split("\n", 1)[1].split()))])]
        for kind, pairs in kinds:
            for name, said in pairs:
                found[kind][crate, name][file] = said
    return found


def matched(before, after):
    """Old and new text of each item: by crate and name, and by file too where a crate has the name in more than one."""
    for crate, name in sorted(set(before) | set(after)):
        old, new = before.get((crate, name), {}), after.get((crate, name), {})
        if len(old) <= 1 and len(new) <= 1:
            yield crate, name, "".join(old.values()), "".join(new.values())
            continue
        for file in sorted(set(old) | set(new)):
            yield crate, f"{file}::{name}", old.get(file, ""), new.get(file, "")


def named_in_pages(commit):
    """The words that the pages of a commit or of today write as code; docs/PORT.md names lemmas only for their spelling."""
    today = set(glob.glob("docs/*.md")) - {"docs/PORT.md", "docs/DESIGN-PASS.md"} | {"README.md", "CONTRIBUTING.md"}
    pages = [open(p, encoding="utf-8").read() for p in today]
    for p in today:
        shown = subprocess.run(["git", "show", f"{commit}:{p}"], capture_output=True, text=True)
        pages += [shown.stdout] if shown.returncode == 0 else []
    return {w for page in pages for w in re.findall(r"`([^`\s]+)`", page)}


def cell(text):
    """A text as code in a cell of a table."""
    return "`" + text.replace("|", "\\|") + "`" if text else ""


def main():
    """Prints what differs, by kind."""
    commit = [a for a in sys.argv[1:] if not a.startswith("--")][0]
    named = named_in_pages(commit)
    before, after = items(files_of(commit, ENDINGS), named), items(files_of(None, ENDINGS), named)
    for kind in before:
        pairs = list(matched(before[kind], after[kind]))
        old, new = sum(bool(p[2]) for p in pairs), sum(bool(p[3]) for p in pairs)
        changed = [p for p in pairs if p[2] != p[3]]
        print(f"\n### {kind}\n\n{old} before, {new} now, {len(changed)} of them changed, gone or new.\n")
        if "--markdown" in sys.argv:
            print("| Crate | Name | Old | New |\n|---|---|---|---|")
        for crate, name, was, now in changed:
            if "--markdown" in sys.argv:
                print(f"| {crate} | `{name}` | {cell(was)} | {cell(now)} |")
            else:
                print(f"{crate} {name}\n    - {was}\n    + {now}")


if __name__ == "__main__":
    main()
