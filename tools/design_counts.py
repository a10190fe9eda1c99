#!/usr/bin/env python3
"""Counts, by text patterns, the places that the design pass speaks of, in crates/*/src/**/*.rt and crates/*/proofs/**/*.antt.

usage: python3 tools/design_counts.py [COMMIT] [--list] [--only KIND] [--table] [--reasons] [--points]     at the top of the repository

Without a commit it reads the working tree. --list prints each place as file:line with its kind, --only KIND those of one kind alone
(`1a`, or `1` for all of point 1), --table a Markdown table by kind and crate, --reasons the comments beside kept places, --points
a row for each kind: found at the commit, changed since, kept with a reason, and left. A kind counts what its pattern finds, and a pattern
reads words, not meanings: docs/DESIGN-PASS.md says what each one takes for a place.
"""

import collections
import itertools
import re
import sys

from design_text import closing, files_of, parts, plain

KINDS = {
    "1a": "own enum of the shape of Option or Result",
    "1b": "struct that carries the answer of questions beside a value",
    "1c": "flag: a parameter or field of type bool",
    "1d": "0 for none: a test of a number against 0",
    "1e": "number for a kind, an order or a refusal",
    "1f": "arm that hands a refusal on",
    "2a": "function with the body of another one, but for names and numbers",
    "2b": "struct with the field types of another one",
    "3a": "loop counted by hand",
    "3b": "other `while`",
    "3c": "`for` over places that reads one list by them",
    "4a": "equality or order by hand",
    "4b": "conversion or copy by hand",
    "4c": "value of zeros or of one call by a function",
    "4d": "match that says each variant",
    "4e": "enum without derived equality",
    "5a": "fact that three or more functions of a crate require",
    "5b": "function with parameters that travel together",
    "6a": "struct with an array and a count beside it",
    "6b": "struct with parallel arrays",
    "6c": "function with parallel lists as parameters",
    "6d": "slice found by start and end",
    "7a": "function that goes by cases on an enum handed in",
    "7b": "function that begins with a test of a flag handed in",
    "8a": "answer that is one tactic of the check",
    "8b": "`let` of a stated fact, or two `let` lines, that three or more places of a crate have",
}
MARKER = re.compile(r"^\s*(?://|--) Kept: (.*)")
ITEM = re.compile(r"\s*(?:pub(?:\(crate\))? )?(?:const|fn|struct|enum|impl|trait|extern)\b|(?:pub )?[\w-]+ : ")
OF_FILE = ("1e", "2b", "5a", "5b", "6c")
TOKEN = re.compile(r"\w+|[^\w\s]")
KEYWORDS = set("fn let mut if else match while for in return break continue as impl pub self true false loop".split())
SIMPLE = {"u8", "u64", "usize", "i32", "i64", "u32", "bool"}

Place = collections.namedtuple("Place", "kind crate path line text")
Function = collections.namedtuple("Function", "crate path line name params result contract body size")


def sources(commit):
    """Path and text of each file of src/ and proofs/, of a commit or of the working tree."""
    return {p: t for p, t in files_of(commit, (".rt", ".antt")).items() if re.match(r"crates/\w+/(src/.*\.rt|proofs/.*\.antt)$", p)}


def functions(path, text):
    """The functions of a file, with parameters, contract and body."""
    found = []
    for head in re.finditer(r"^ *(?:pub(?:\(crate\))? )?(?:extern _+ )?fn (\w+)", text, re.M):
        opened = text.index("(", head.end())
        closed = closing(text, opened)
        at = contract_from = closed
        while True:
            brace = text.find("{", at)
            if brace < 0:
                break
            if re.search(r"(requires|ensures|decreases|ghost)( \w+)?\s*$", text[at:brace]):
                at = closing(text, brace)
                continue
            end = closing(text, brace)
            start = text[: head.start()].count("\n") + 1
            contract = text[contract_from:brace]
            lines = text[head.start() : end].count("\n") + 1 - contract.count("\n")
            result = contract.split("requires")[0].split("ensures")[0].strip().removeprefix("->").strip()
            found.append(
                Function(path.split("/")[1], path, start, head[1], parts(text[opened + 1 : closed - 1], ","), result,
                         contract, text[brace + 1 : end - 1], lines)
            )
            break
    return found


def types(path, text):
    """The structs and enums of a file: kind, name, line, the text before, and the fields or variants."""
    for head in re.finditer(r"^(?:pub(?:\(crate\))? )?(struct|enum) (\w+)(?:<[^{]*>)? \{", text, re.M):
        body = text[head.end() : closing(text, head.end() - 1) - 1]
        before = text[: head.start()].rsplit("\n\n", 1)[-1]
        yield head[1], head[2], text[: head.start()].count("\n") + 1, before, parts(body, ",")


def field_type(field):
    """The type of a field or a parameter."""
    return field.split(":", 1)[-1].strip()


def type_places(crate, path, text, shapes):
    """The places of points 1, 2, 4 and 6 in the types of a file."""
    for kind, name, line, before, fields in types(path, text):
        spot = lambda which, what: Place(which, crate, path, line, f"{kind} {name}: {what}")
        names = [re.match(r"(?:pub(?:\(crate\))? )?(\w+)", f)[1] for f in fields]
        if kind == "enum":
            loaded = ["(" in f or "{" in f for f in fields]
            if len(fields) == 2 and any(loaded) or any(n in ("Unsaid", "None", "Absent", "Nothing") for n in names):
                yield spot("1a", ", ".join(names))
            if "PartialEq" not in before:
                yield spot("4e", "no PartialEq")
            continue
        kinds = [field_type(f) for f in fields]
        if any(re.match(r"(Asked|Option<Refusal>|Result<\(\), Refusal>)$", k) for k in kinds):
            yield spot("1b", ", ".join(names))
        for n, k in zip(names, kinds):
            if k == "bool":
                yield spot("1c", n)
            if k == "u64" and n in ("refusal", "kind", "order"):
                yield spot("1e", n)
        arrays = [k for k in kinds if k.startswith("[")]
        if arrays and any(n in ("count", "len", "size") for n in names):
            yield spot("6a", ", ".join(names))
        if len({k.split(";")[-1] for k in arrays}) < len(arrays):
            yield spot("6b", ", ".join(names))
        if len(fields) >= 2:
            shapes[tuple(kinds)].append(spot("2b", ", ".join(names)))


def loop_places(crate, path, text):
    """The loops of a file."""
    for head in re.finditer(r"^ *while (.*) \{$", text, re.M):
        line = text[: head.start()].count("\n") + 1
        opened = head.end() - 1
        body = text[opened : closing(text, opened)]
        words = set(re.findall(r"\w+", head[1]))
        counted = any(re.search(rf"\b{w} (\+|-)= 1;", body) for w in words)
        yield Place("3a" if counted else "3b", crate, path, line, head[0].strip())
    for head in re.finditer(r"^ *for (\w+) in [^\n]*\.\.[^\n]* \{$", text, re.M):
        opened = head.end() - 1
        body = text[opened : closing(text, opened)]
        uses = re.findall(rf"\b{head[1]}\b", body)
        indexed = re.findall(rf"(\w+)\[{head[1]}\]", body)
        if uses and len(indexed) == len(uses) and len(set(indexed)) == 1:
            yield Place("3c", crate, path, text[: head.start()].count("\n") + 1, head[0].strip())


def line_places(crate, path, text):
    """The places that one line shows."""
    for number, line in enumerate(text.split("\n"), 1):
        spot = lambda which: Place(which, crate, path, number, line.strip())
        if re.search(r"\bif !?\(?[\w.]+ (==|!=) 0\b|\b(1 <=|0 <) (above|lower|node|v|best|htu|first|second)\b", line):
            yield spot("1d")
        if re.search(r"Refused(\(\w+\)| \{.*\}) => .*([Rr]efused|Err)\b|Err\((\w+)\) => .*Err\(", line):
            yield spot("1f")
        if re.search(r"^(?:pub )?const (ADVANCE|CLOSEST|WAGNER|OWN)\b", line):
            yield spot("1e")
        if re.search(r"\[[^\[\]]*\w[^\[\]]*\.\.[^\[\]]*\]", line) and re.search(r"&(mut )?[\w.]+\[(\w*[a-z]\w*[^\]]*\.\.[^\]]*\w|\w*[a-z]\w*.*\.\.)\]", line):
            yield spot("6d")
        if re.search(r"^\s*(\w+)\[([^\]]*)\] = (\w+)\[([^\]]*)\];", line) and not re.search(r"\[\d+\] =", line):
            yield spot("4b")


def said_by_hand(f):
    """The kind of a function that does by hand what a derive or std has, or nothing."""
    body = " ".join(f.body.split())
    if f.name.startswith("same_") or f.name in ("least", "most", "lower", "higher", "min", "max", "lesser", "greater"):
        return "4a"
    if re.fullmatch(r"[\w.]+ (==|<|<=) [\w.]+", body) and len(f.params) == 2:
        return "4a"
    if re.fullmatch(r"\*?\w+ as \w+", body):
        return "4b"
    if not f.params and re.fullmatch(r"(let \w+ = )?\w+ \{ (\w+: [\w\[\]; ]+,? ?)+\}.*", body):
        return "4c"
    if re.fullmatch(r"(\w+)\.\w+\(\w*\);?", body) and all(p.split(":")[0].removeprefix("mut ") in body for p in f.params) and f.params[0].find("self") < 0:
        return "4c"
    arms = re.fullmatch(r"match \w+ \{ ((?:[\w:]+ => (?:\w+|\w+!?\([^()]*\)),? ?)+)\}", body)
    if arms and arms[1].count("=>") >= 2:
        return "4d"
    return None


def function_places(f, enums):
    """The places that the head and the body of a function show."""
    spot = lambda which, what: Place(which, f.crate, f.path, f.line, f"fn {f.name}: {what}")
    named = [(p.split(":")[0].removeprefix("mut ").strip(), field_type(p)) for p in f.params if ":" in p]
    for name, kind in named:
        if kind == "bool":
            yield spot("1c", name)
            if re.match(rf"\s*if !?{name} \{{", f.body):
                yield spot("7b", name)
        if kind == "u64" and name in ("refusal", "kind", "order"):
            yield spot("1e", name)
        if kind in enums and re.search(rf"match \*?{name} \{{", f.body):
            yield spot("7a", f"{name}: {kind}")
    lists = [k for _, k in named if k.startswith(("&[", "&mut [", "["))]
    if any(lists.count(k) >= 2 for k in lists):
        yield spot("6c", ", ".join(n for n, k in named if lists.count(k) >= 2))
    by_hand = said_by_hand(f)
    if by_hand:
        yield spot(by_hand, " ".join(f.body.split())[:60])


def alike(body):
    """A body with names and numbers taken out, names numbered as they come."""
    seen, out = {}, []
    for token in TOKEN.findall(body):
        if token in KEYWORDS:
            out.append(token)
        elif re.match(r"\w", token):
            out.append("0" if token[0].isdigit() or token.isupper() or token in SIMPLE else "n%d" % seen.setdefault(token, len(seen)))
        else:
            out.append(token)
    return " ".join(out)


def twins(all_functions):
    """Functions of more than 6 lines whose bodies differ in names and numbers alone."""
    groups = collections.defaultdict(list)
    for f in all_functions:
        if f.size > 6 and f.crate != "exports_c" and len(TOKEN.findall(f.body)) > 20:
            groups[alike(f.body)].append(f)
    for group in groups.values():
        for f in group[1:]:
            yield Place("2a", f.crate, f.path, f.line, f"fn {f.name}: as {group[0].crate} {group[0].name}")


def required_facts(all_functions):
    """The conjuncts of `requires` that three or more functions of a crate share, each counted once, at its first function."""
    found = collections.defaultdict(list)
    for f in all_functions:
        for clause in re.finditer(r"requires(?: \w+)? \{", f.contract):
            text = f.contract[clause.end() : closing(f.contract, clause.end() - 1) - 1]
            for fact in parts(text.replace("(", " ( ").replace(")", " ) "), "×"):
                key = re.sub(r"^\( (.*) \)$", r"\1", re.sub(r"\.(now|old|new)\b", "", fact))
                for one in parts(key, "×"):
                    found[f.crate, re.sub(r"^\( (.*) \)$", r"\1", one)].append(f)
    for (crate, fact), users in found.items():
        if len({u.name for u in users}) >= 3:
            yield Place("5a", crate, users[0].path, users[0].line, f"{fact}: {', '.join(sorted({u.name for u in users}))}")


def travelling(all_functions):
    """Functions with a run of three or more parameters that three or more functions of the crate have."""
    runs = collections.defaultdict(dict)
    for f in all_functions:
        named = [p.removeprefix("mut ") for p in f.params if ":" in p]
        for i in range(len(named) - 2):
            runs[f.crate, tuple(re.sub(r"&mut ", "&", p) for p in named[i : i + 3])][f.path, f.line] = f
    held = {}
    for (crate, run), users in runs.items():
        if len(users) >= 3:
            for key, f in users.items():
                held.setdefault(key, (f, run))
    for f, run in held.values():
        yield Place("5b", f.crate, f.path, f.line, f"fn {f.name}: {', '.join(p.split(':')[0] for p in run)}")


def proof_places(files):
    """Answers of one tactic; a `let` with its fact, or two `let` lines in a row of which one is proved, that three or more places of a crate have."""
    stood = collections.defaultdict(list)
    for path, text in files.items():
        crate, before = path.split("/")[1], ""
        for number, line in enumerate(text.split("\n"), 1):
            words = " ".join(line.split())
            if path.endswith("/Answers.antt") and re.search(r"^[a-zA-Z][\w-]*( \w+)+ = (search rules|omega arith)$", line):
                yield Place("8a", crate, path, number, words)
            one = re.search(r"\blet (\w+ : .* in)$", words)
            # nor does one that gives a name to a number, a node or a list
            if one and re.match(r"\w+ : (ℕ|ℤ|Bool|List .*) = ", one[1]):
                one = None
            two = before + " " + words if re.match(r"let .* in$", words) and before else ""
            # a `let` that only gives a part of the context a name proves nothing
            if two and all(re.match(r"^let \w+ = [\w.+-]+ in$", half) for half in (before, words)):
                two = ""
            for said in ([one[1]] if one else []) + ([two] if two else []):
                stood[crate, said].append((path, number))
            before = words if re.match(r"let .* in$", words) else ""
    for (crate, said), users in stood.items():
        if len(users) >= 3:
            for path, number in users[1:]:
                yield Place("8b", crate, path, number, said)


def places(files):
    """All places, by kind, crate and path."""
    code = {p: plain(t) for p, t in files.items() if p.endswith(".rt")}
    enums = {name for p, t in code.items() for kind, name, *_ in types(p, t) if kind == "enum"} | {"OrderWord"}
    found, shapes, all_functions = [], collections.defaultdict(list), []
    for path, text in code.items():
        crate = path.split("/")[1]
        found += type_places(crate, path, text, shapes)
        found += loop_places(crate, path, text)
        found += line_places(crate, path, text)
        all_functions += functions(path, text)
    for f in all_functions:
        found += function_places(f, enums)
    found += [spot for group in shapes.values() for spot in group[1:]]
    found += twins(all_functions)
    found += required_facts(all_functions)
    found += travelling(all_functions)
    found += proof_places({p: t for p, t in files.items() if p.endswith(".antt")})
    return sorted(set(found))


def reasons(files):
    """The comments beside kept places: path, line, reason."""
    for path, text in files.items():
        for number, line in enumerate(text.split("\n"), 1):
            said = MARKER.match(line)
            if said:
                yield path, number, said[1]


def table(found):
    """A Markdown table by kind: how many places, and in which crates."""
    print("| Kind | What is counted | All | By crate |")
    print("|---|---|--:|---|")
    for kind, words in KINDS.items():
        count = collections.Counter(p.crate for p in found if p.kind == kind)
        print(f"| {kind} | {words} | {sum(count.values())} | {', '.join(f'{c} {n}' for c, n in sorted(count.items()))} |")


def has_reason(place, files):
    """Whether a comment says why a place is kept: above it, in its type or function, or, for what is said of a file, at its head."""
    lines = files[place.path].split("\n")
    items = [i for i, line in enumerate(lines) if ITEM.match(line)]
    head = itertools.takewhile(lambda line: line.startswith(("//", "--")), lines)
    if place.kind in OF_FILE and any(MARKER.match(line) for line in head):
        return True
    start, end = max((i for i in items if i < place.line), default=0), place.line
    while start > 0 and lines[start - 1].strip().startswith(("//", "--", "#[")):
        start -= 1
    while place.text.startswith(("struct ", "enum ")) and lines[end - 1] != "}":
        end += 1
    return any(MARKER.match(line) for line in lines[start:end])


def points(before, found, files):
    """A Markdown table by kind: found before, changed since, kept with a reason, left."""
    print("| Kind | What is counted | Found | Changed | Kept | Left |")
    print("|---|---|--:|--:|--:|--:|")
    for kind, words in KINDS.items():
        first = sum(p.kind == kind for p in before)
        now = [p for p in found if p.kind == kind]
        kept = sum(has_reason(p, files) for p in now)
        print(f"| {kind} | {words} | {first} | {first - len(now)} | {kept} | {len(now) - kept} |")


def main():
    """Prints counts, places, the table, the reasons or the points."""
    options = [a for a in sys.argv[1:] if a.startswith("--")]
    plain_words = [a for a in sys.argv[1:] if not a.startswith("--")]
    only = plain_words.pop() if "--only" in options else ""
    files = sources(plain_words[0] if plain_words else None)
    if "--reasons" in options:
        kept = list(reasons(files))
        for path, number, reason in kept:
            print(f"{path}:{number}: {reason}")
        for first, count in sorted(collections.Counter(r.split(",")[0] for _, _, r in kept).items()):
            print(f"{count:5} {first}")
        return
    if "--points" in options:
        files = sources(None)
        points(places(sources(plain_words[0])), places(files), files)
        return
    found = [p for p in places(files) if p.kind.startswith(only)]
    if "--list" in options:
        for p in found:
            print(f"{p.path}:{p.line}: {p.kind} {p.text}")
    elif "--table" in options:
        table(found)
    else:
        for kind, words in KINDS.items():
            if kind.startswith(only):
                print(f"{sum(1 for p in found if p.kind == kind):5}  {kind}  {words}")


if __name__ == "__main__":
    main()
