#!/usr/bin/env python3
"""Writes docs/BELIEVED.md: what a reader has to believe, as the definitions that the claims and the contracts of the exported calls reach.

usage: python3 tools/believed.py [--check | --unreached]     at the top of the repository

It reads crates/*/specs/**/*.antt, and of crates/*/src/**/*.rt the structs and enums, which are definitions as well. A definition uses what the
names in its text mean, in its type, its clauses and the types of the parameters of the modules around it, comments and bound names left out;
and it reaches what it uses, and what that reaches. A claim begins with its own name and with what the theorem says that proves it, a call
with its `ensures` and the types that it takes and hands back. With --check nothing is written, and the exit status is 1 if docs/BELIEVED.md
is not what would be written. --unreached prints the definitions in crates without functions that no claim and no call reaches.
"""

import collections
import os
import re
import sys

from antt_text import Definitions, Names, tokens
from definitions import RUST_COMMENT, Sources, crate_of, meant, module_parts
from design_text import closing

PAGE = "docs/BELIEVED.md"
# claim: file and name of its definition, if it has one, and file and name of the theorem, if one states it
CLAIMS = [
    ("crates/rivals/specs/Accepted.antt", "Accepted", None, None),
    ("crates/rivals/specs/Demand.antt", "NoRivalDoesBetter", "crates/rivals/proofs/Demand.antt", "no_rival"),
    ("crates/consistency_form/specs/Floor.antt", "FloorNeverPasses", "crates/rivals/proofs/Floor.antt", "floor_lowest"),
    ("crates/listing_form/specs/InPrint.antt", "NoRivalInPrint", "crates/listing_form/proofs/InPrint.antt", "no_rival_in_print"),
    ("crates/listing_form/specs/InPrint.antt", "OwnInPrint", "crates/listing_form/proofs/InPrint.antt", "own_in_print"),
    ("crates/table/specs/Table.antt", "Table", "crates/table/proofs/Computed.antt", "table"),
    (None, None, "crates/file_form/proofs/File/Accepted.antt", "accepted_exactly"),
]
# exported calls: a file, and those of its public functions that are such calls; none said: all
CALLS = [
    ("crates/exports/src/calls.rt", ()),
    ("crates/listing/src/call.rt", ()),
    ("crates/matrix_file/src/reading.rt", ()),
    ("crates/difference/src/calls.rt", ()),
    ("crates/prim/src/network.rt", ()),
    ("crates/branching/src/placement.rt", ("place",)),
    ("crates/wagner/src/build.rt", ()),
    ("crates/fitting/src/calls.rt", ()),
    ("crates/consistency/src/calls.rt", ()),
    ("crates/references/src/kept.rt", ()),
    ("crates/references/src/written.rt", ()),
    ("crates/references/src/lent.rt", ()),
]

Root = collections.namedtuple("Root", "path name theorem begins")


def claim_roots(sources):
    """The claims."""
    for path, name, proof, theorem in CLAIMS:
        begins = {(path, name)} if path else set()
        if theorem:
            law = Definitions(sources.texts[proof], sources.variants(proof), types_only=True).found[theorem]
            begins |= meant(law.names, sources.scope(proof))
        yield Root(path or proof, name or theorem, f"`{theorem}` in `{proof}`" if theorem else "", begins)


def said_of(sources, root):
    """The words over a claim, or over the theorem that is one."""
    if (root.path, root.name) in sources.places:
        return sources.places[root.path, root.name].comment
    return re.search(r"((?:^-- [^\n]*\n)+)pub %s :" % re.escape(root.name), sources.texts[root.path], re.M)[1].replace("-- ", "").replace("\n", " ").strip()


def call_roots(sources):
    """The exported calls."""
    for path, named in CALLS:
        text = sources.texts[path]
        for head in re.finditer(r"^ *pub fn (\w+)", text, re.M):
            if named and head[1] not in named:
                continue
            opened = text.index("(", head.end())
            begins = contract_names(text, opened, sources.scope(path), sources.rust_scope(path))
            owner = re.findall(r"^impl\S* (\w+)", text[: head.start()], re.M)[-1:] if head[0].startswith(" ") else []
            yield Root(path, "::".join([crate_of(path)] + module_parts(path) + owner + [head[1]]), "", begins)


def contract_names(text, opened, scope, types):
    """What the contract of a function uses whose parameters begin at a place: its `ensures`, and the types of its parameters and its result."""
    closed = closing(text, opened)
    bound = set(re.findall(r"(\w+):", text[opened:closed])) | {"self", "result"}
    words, found, at = text[opened:closed], set(), closed
    while True:
        brace = text.index("{", at)
        clause = re.search(r"(requires|ensures)( \w+)?\s*$", text[at:brace])
        if not clause:
            return found | meant(set(re.findall(r"\w+", words + text[closed:brace].split("ensures")[0])), types)
        end = closing(text, brace)
        if clause[1] == "ensures":
            found |= meant(Names(()).free(tokens(text[brace + 1 : end - 1]), set(bound)), scope)
        at = end


def reach(sources, begins):
    """All that is reached from some definitions."""
    found, waiting = set(), list(begins)
    while waiting:
        key = waiting.pop()
        if key not in found:
            found.add(key)
            waiting += sources.places[key].uses
    return found


class Reached:
    """What the roots reach, and in what order a reader may read it."""

    def __init__(self, sources):
        self.sources, self.claims, self.calls = sources, list(claim_roots(sources)), list(call_roots(sources))
        self.by_root = [reach(sources, root.begins) for root in self.claims + self.calls]
        self.claimed = set().union(*self.by_root[: len(self.claims)])
        self.promised = set().union(*self.by_root[len(self.claims) :]) - self.claimed
        self.order = [key for key in sources.places if key in self.claimed | self.promised]
        place = {key: at for at, key in enumerate(self.order)}
        late = [key for key in self.order if any(place[used] > place[key] for used in sources.places[key].uses)]
        if late:
            raise ValueError(f"these stand before what they use: {late}")
        self.specs = [key for key in sources.places if key[0].endswith(".antt")]
        self.plain = without_functions(sources)
        self.unreached = [key for key in self.specs if key not in place and crate_of(key[0]) in self.plain]

    def numbers(self, key):
        """The numbers of the roots that reach a definition, as ranges."""
        found = [number for number, reached in enumerate(self.by_root, 1) if key in reached]
        runs = []
        for number in found:
            if runs and runs[-1][1] == number - 1:
                runs[-1][1] = number
            else:
                runs.append([number, number])
        return ", ".join(f"{first}" if first == last else f"{first}-{last}" for first, last in runs)


def without_functions(sources):
    """The crates with definitions and without a function."""
    with_functions = {crate_of(p) for p in sources.rust if re.search(r"\bfn \w", RUST_COMMENT.sub("", sources.texts[p]))}
    return [crate for crate in sources.crates if crate not in with_functions and any(crate_of(p) == crate for p in sources.specs)]


def counted(sources, keys):
    """How many definitions of specs/, how many types of src/, and how many lines these have, as cells."""
    specs = sum(key[0].endswith(".antt") for key in keys)
    return f"{specs} | {len(keys) - specs} | {sum(sources.places[key].size for key in keys)}"


def cell(text):
    """A text as it may stand in a cell of a table."""
    return text.replace("|", "\\|")


def total_lines(found):
    """The table of totals."""
    sources = found.sources
    reached = found.claimed | found.promised
    rows = [
        ("reached by the claims", found.claimed),
        ("reached by the contracts of the exported calls besides", found.promised),
        ("reached in all", reached),
        ("of these in crates without a function", {key for key in reached if crate_of(key[0]) in found.plain}),
        ("all that stand in `specs/`", found.specs),
        ("of these in crates without a function", [key for key in found.specs if crate_of(key[0]) in found.plain]),
        ("of these reached by no claim and no call", found.unreached),
    ]
    yield from ["| Definitions | in `specs/` | structs and enums | their lines |", "|---|--:|--:|--:|"]
    for words, keys in rows:
        yield f"| {words} | {counted(sources, list(keys))} |"


def root_lines(found):
    """The tables of the claims and of the exported calls, by number."""
    sources = found.sources
    yield from ["", "## The claims", "", "| | Claim | What it says | Stands in | Proved by | Reaches |", "|--:|---|---|---|---|--:|"]
    for number, root in enumerate(found.claims, 1):
        said = cell(said_of(sources, root))
        yield f"| {number} | `{root.name}` | {said} | `{root.path}` | {root.theorem} | {len(found.by_root[number - 1])} |"
    yield from ["", "## The exported calls", "", "| | Call | Its contract and its types name | Reaches |", "|--:|---|---|--:|"]
    for number, root in enumerate(found.calls, len(found.claims) + 1):
        named = ", ".join(f"`{key[1]}`" for key in found.order if key in root.begins)
        yield f"| {number} | `{root.name}` | {named} | {len(found.by_root[number - 1])} |"


def definition_lines(found):
    """The tables of the definitions that are reached, file by file."""
    path = crate = None
    for key in found.order:
        place = found.sources.places[key]
        if crate_of(key[0]) != crate:
            crate = crate_of(key[0])
            yield from ["", f"### `{crate}`"]
        if key[0] != path:
            path = key[0]
            yield from ["", f"`{path}`", "", "| Definition | In words | Reached by |", "|---|---|---|"]
        yield f"| `{place.name}` | {cell(place.comment)} | {found.numbers(key)} |"


def unreached_lines(found):
    """The definitions of crates without functions that no root reaches, file by file."""
    by_file = collections.defaultdict(list)
    for path, name in found.unreached:
        by_file[path].append(f"`{name}`")
    for path, names in by_file.items():
        yield f"- `{path}`: {', '.join(names)}"


def page(found):
    """The page, line by line."""
    crates = ", ".join(f"`{crate}`" for crate in found.plain)
    yield from [
        "# What a reader has to believe",
        "",
        "Written by `python3 tools/believed.py` from the files; `--check` says whether it is up to date.",
        "",
        "The checker proves that the claims follow from the definitions and that the calls do what their contracts say. What it cannot know is whether a",
        "definition is the one that the papers mean: that is a reader's to judge. Below stand the claims and the exported calls, each with a",
        "number, and then every definition that one of them reaches, each behind all that it uses, with the numbers of those that reach it.",
        "A definition counts as reached if its name stands in a claim, in what the theorem says that proves it, in the `ensures` of a call or among the types",
        "that the call takes and hands back, or in another definition that is reached. Lines are counted without comments and empty lines.",
        "",
        f"Crates without a function: {crates}.",
        "",
        *total_lines(found),
        *root_lines(found),
        "",
        "## The definitions",
        *definition_lines(found),
        "",
        "## Reached by no claim and no call",
        "",
        "What stands in `specs/` of crates without a function for laws and examples alone.",
        "",
        *unreached_lines(found),
        "",
    ]


def main():
    """Writes the page, compares it, or prints what is not reached."""
    found = Reached(Sources())
    if "--unreached" in sys.argv[1:]:
        print("\n".join(unreached_lines(found)))
        return 0
    text = "\n".join(page(found))
    if "--check" not in sys.argv[1:]:
        with open(PAGE, "w", encoding="utf-8") as f:
            f.write(text)
        return 0
    if os.path.exists(PAGE):
        with open(PAGE, encoding="utf-8") as f:
            if f.read() == text:
                return 0
    print(f"{PAGE} is not up to date: python3 tools/believed.py")
    return 1


if __name__ == "__main__":
    sys.exit(main())
