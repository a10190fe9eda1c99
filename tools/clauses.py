#!/usr/bin/env python3
"""Lists each clause of each claim and of each exported call's contract, with the theorems that use it.

usage: python3 tools/clauses.py [--unused]     at the top of the repository

A claim is one of CLAIMS; the contract of an exported call is what its `ensures` cites of specs/, by tools/believed.py, or the records that
this uses. A record has its fields as clauses. A theorem of crates/*/proofs uses one if `.FIELD` stands in it behind something, and in its
file the name of the record, or of one whose clauses cite it; in a file that makes the record, field by field, only a theorem that names it
and does not make it counts. A contract that is no record is one clause, and a theorem uses it that names it, other than to answer the goals
of a function; what a data type of a claim hands to a pattern (`EachIsLeast`) is not looked at. Names are compared, not types: a field whose
name others have too may be counted where it is not used. With --unused only what no theorem uses is printed; the exit status is 1 if there
is such a clause.
"""

import re
import sys

from believed import call_roots
from definitions import Sources
from statements import HEAD, TYPED, block

# the files of specs/ that have contracts of calls
PAGES = ("/Calls.antt", "/Handing.antt", "/references/specs/Kept.antt", "/references/specs/Written.antt")
CLAIMS = [
    ("crates/rivals/specs/Demand.antt", "NoRivalDoesBetter"),
    ("crates/rivals/specs/Demand.antt", "NoTaxonAddsLess"),
    ("crates/tree_form/specs/Rival.antt", "PlacementIsLeast"),
    ("crates/prim_form/specs/Rival.antt", "Shortest"),
    ("crates/fit_form/specs/Rival.antt", "FitIsLeast"),
    ("crates/fit_form/specs/Handing.antt", "HandedBack"),
    ("crates/fit_form/specs/Handing.antt", "FitHanded"),
    ("crates/fit_form/specs/Marks.antt", "MarkMeans"),
    ("crates/consistency_form/specs/Floor.antt", "FloorNeverPasses"),
    ("crates/listing_form/specs/InPrint.antt", "BuildLeast"),
    ("crates/listing_form/specs/InPrint.antt", "TreeLeast"),
    ("crates/listing_form/specs/InPrint.antt", "NoRivalInPrint"),
    ("crates/listing_form/specs/InPrint.antt", "OwnInPrint"),
    ("crates/listing_form/specs/Calls.antt", "ListDone"),
    ("crates/file_form/specs/Calls.antt", "ReadDone"),
    ("crates/export_form/specs/Calls.antt", "ListExported"),
    ("crates/export_form/specs/Calls.antt", "ReadExported"),
    ("crates/export_form/specs/Calls.antt", "BuildExported"),
    ("crates/export_form/specs/Calls.antt", "FitExported"),
]


def without_uses(text):
    """A file of proofs without its imports and comments."""
    return "\n".join(line for line in text.split("\n") if not re.match(r"\s*(?:pub )?use |\s*-- ", line))


def theorems(text):
    """The theorems of a file, each by name with its type and its proof."""
    heads = list(TYPED.finditer(text))
    ends = [head.start() for head in heads[1:]] + [len(text)]
    return [(head[1], text[head.start() : end]) for head, end in zip(heads, ends)]


def makes(text, fields):
    """Whether a text makes a record with these fields."""
    return all(re.search(rf"(?<![\w.'-]){re.escape(field)} =", text) for field in fields)


def word(names):
    """One of some names, as a whole word."""
    return re.compile(rf"(?<![\w.'-])(?:{names})(?![\w'-])")


class Clauses:
    """The clauses of the claims and of the contracts, and the theorems that use each."""

    def __init__(self):
        self.sources = Sources()
        self.proofs = {p: without_uses(t) for p, t in self.sources.texts.items() if re.match(r"crates/\w+/proofs/.*\.antt$", p)}
        cited = set().union(*(root.begins for root in call_roots(self.sources)))
        found = set().union(*(self.records_behind(key) or {key} for key in cited if key[0].endswith(PAGES)))
        self.contracts = sorted(found - set(CLAIMS))

    def records_behind(self, key):
        """Of a definition that is no record, the records of contracts that it uses."""
        used = () if self.fields(key) else self.sources.places[key].uses
        return {other for other in used if other[0].endswith(PAGES) and self.fields(other)}

    def fields(self, key):
        """The fields of a record; nothing for another definition."""
        heads = [head for head in HEAD.finditer(self.sources.texts[key[0]]) if head[2] == "record" and head[3] == key[1]]
        return TYPED.findall(block(self.sources.texts[key[0]], heads[0])) if heads else []

    def naming(self, key):
        """The names of a record and of all records and data types whose clauses cite it."""
        found, more = {key}, True
        while more:
            citing = {k for k, place in self.sources.places.items() if place.uses & found and k[0].endswith(".antt") and k[1][0].isupper()}
            found, more = found | citing, not citing <= found
        return {name for _, name in found}

    def of_record(self, key, fields):
        """Each clause of a record, with the theorems that use it."""
        names = word("|".join(sorted(map(re.escape, self.naming(key)))))
        using = []
        for path, text in self.proofs.items():
            if makes(text, fields):
                using += [(path, name, part) for name, part in theorems(text) if word(key[1]).search(part) and not makes(part, fields)]
            elif names.search(text):
                using += [(path, *theorem) for theorem in theorems(text)]
        for field in fields:
            use = re.compile(rf"(?<=[\w)'])\.{re.escape(field)}(?![\w'-])")
            yield field, [(path, name) for path, name, part in using if use.search(part)]

    def of_contract(self, key):
        """The theorems that name a contract which is no record, but for the answers to the goals of a function."""
        files = [path for path in self.proofs if not path.endswith(("/Answers.antt", "/Invariants.antt"))]
        return [(path, name) for path in files for name, part in theorems(self.proofs[path]) if word(re.escape(key[1])).search(part)]

    def all(self):
        """Each clause: the file of its definition, the clause, and the theorems that use it, each with its file."""
        for key in CLAIMS + [key for key in self.contracts if self.fields(key)]:
            for field, using in self.of_record(key, self.fields(key)):
                yield key[0], f"{key[1]}.{field}", using
        for key in self.contracts:
            if not self.fields(key):
                yield *key, self.of_contract(key)


def main():
    """Prints the clauses."""
    unused = 0
    for path, clause, using in Clauses().all():
        unused += not using
        if not using or "--unused" not in sys.argv[1:]:
            files = dict.fromkeys(file for file, _ in using)
            said = (f"{file}: " + " ".join(name for at, name in using if at == file) for file in files)
            print(f"{clause}\t{path}\t{'; '.join(said) or '-'}")
    return int(unused > 0)


if __name__ == "__main__":
    sys.exit(main())
