"""What tools/believed.py reads of all crates: the definitions of specs/ and the structs and enums of src/, and what each of them uses."""

import collections
import re

from antt_text import Definitions, constructors, imports
from design_text import closing, files_of

RUST_USE = re.compile(r"^\s*(?:pub )?use ([\w:]+?)(?:::\{([^}]*)\}|::(\w+))?;", re.M)
RUST_TYPE = re.compile(r"^(?:pub(?:\(crate\))? )?(struct|enum|type) (\w+)", re.M)
RUST_COMMENT = re.compile(r"//.*$", re.M)

# a definition of specs/ or a type of src/: where it stands, its comment, its lines, and the keys of what it uses
Place = collections.namedtuple("Place", "path name line comment size uses")


def crate_of(path):
    """The crate of a file."""
    return path.split("/")[1]


def module_of(path):
    """The path by which an .antt file is imported."""
    return "Rattle." + path.removeprefix("crates/").removesuffix(".antt").replace("/", ".")


class Sources:
    """All definitions, by the path of their file and their name, in an order in which each stands behind what it uses."""

    def __init__(self):
        self.texts = files_of(None, (".antt", ".rt"))
        self.crates = listed_crates()
        self.specs = [p for p in self.texts if re.match(r"crates/\w+/specs/.*\.antt$", p)]
        self.rust = [p for p in self.texts if re.match(r"crates/\w+/src/.*\.rt$", p)]
        self.modules = {module_of(p): p for p in self.texts if p.endswith(".antt")}
        self.types = {(p, found[2]): found[1] for p in self.rust for found in RUST_TYPE.finditer(self.texts[p])}
        self.made = {p: constructors(self.texts[p]) for p in self.specs}
        self.heads = {p: Definitions(self.texts[p], (), types_only=True).found for p in self.specs}
        self.places = {}
        for path in self.in_order(self.rust):
            self.places.update(self.rust_places(path))
        for path in self.in_order(self.specs):
            self.places.update(self.spec_places(path))
        self.places = {key: self.places[key] for key in sorted(self.places, key=lambda key: self.crates.index(crate_of(key[0])))}

    def meaning(self, path, name):
        """The keys of what an import of a path and a name means; empty for a law, what the kit has, and a function or a constant of src/."""
        if not path.startswith("Rattle.") or path.split(".")[1] not in self.crates:
            return ()
        crate, folder, *inner = path.split(".")[1:]
        if folder == "proofs":
            return ()
        if inner[:1] == ["declared"]:
            *module, last = inner[1:]
            if last == "TheVariants":
                *module, name = module
            return self.rust_meaning(crate, module, name)
        file = self.modules[path]
        if name in self.heads.get(file, ()):
            return ((file, name),)
        if name in self.made.get(file, ()):
            return ((file, self.made[file][name]),)
        again = [i for i in imports(self.texts[file]) if i[2] == name]
        if not again:
            raise ValueError(f"{path} has no {name}")
        return self.meaning(again[0][0], again[0][1])

    def rust_meaning(self, crate, module, name):
        """The key of a type that a module of src/ declares; of an alias, what it stands for."""
        path = f"crates/{crate}/src/{'/'.join(module) or 'lib'}.rt"
        if self.types.get((path, name)) == "type":
            said = re.search(rf"\btype {name}\b[^=]*=([^;]*);", self.texts[path])[1]
            scope = self.rust_names(path)
            return tuple(key for word in re.findall(r"\w+", said) if word in scope for key in self.rust_meaning(*scope[word]))
        return ((path, name),) if (path, name) in self.types else ()

    def scope(self, path):
        """What each name means in a file of specs/ or proofs/, or by the `ghost use` lines of a file of src/."""
        text = self.texts[path]
        if path.endswith(".rt"):
            text = "\n".join(line.strip().removeprefix("ghost ").rstrip(";") for line in text.split("\n") if line.strip().startswith("ghost use "))
        found = {here: self.meaning(where, name) for where, name, here in imports(text)}
        found.update({name: ((path, name),) for name in self.heads.get(path, ())})
        found.update({name: ((path, data),) for name, data in self.made.get(path, {}).items()})
        return found

    def variants(self, path):
        """The names that are constructors in a file: of data types and enums, its own and imported ones."""
        found = set(self.made.get(path, ()))
        for where, name, here in imports(self.texts[path]):
            if where.endswith(".TheVariants") or name in self.made.get(self.modules.get(where), ()):
                found.add(here)
        return found

    def rust_names(self, path):
        """Crate, module and name of each type and other item that a file of src/ declares or imports from a crate of the repository."""
        found = {name: (crate_of(path), module_parts(path), name) for at, name in self.types if at == path}
        for where, many, one in RUST_USE.findall(self.texts[path]):
            crate, *module = where.split("::")
            crate = crate_of(path) if crate == "crate" else crate
            if crate in self.crates:
                found.update((name.strip(), (crate, module, name.strip())) for name in (many or one).split(",") if name.strip())
        return found

    def rust_scope(self, path):
        """What each name of a type means in a file of src/."""
        return {name: self.rust_meaning(*item) for name, item in self.rust_names(path).items()}

    def in_order(self, paths):
        """Files in an order in which each stands behind those that it uses."""
        found, seen = [], set()

        def visit(path):
            if path in paths and path not in seen:
                seen.add(path)
                for below in self.used_files(path):
                    visit(below)
                found.append(path)

        for path in sorted(paths, key=lambda p: (self.crates.index(crate_of(p)), p)):
            visit(path)
        return found

    def used_files(self, path):
        """The files that a file imports from."""
        scope = self.rust_scope(path) if path.endswith(".rt") else self.scope(path)
        return [key[0] for keys in scope.values() for key in keys if key[0] != path]

    def spec_places(self, path):
        """The definitions of a file of specs/."""
        scope = self.scope(path)
        for name, made in Definitions(self.texts[path], self.variants(path)).found.items():
            uses = meant(made.names, scope) - {(path, name)}
            yield (path, name), Place(path, name, made.line, made.comment, made.size, uses)

    def rust_places(self, path):
        """The structs and enums of a file of src/."""
        text, scope = self.texts[path], {**self.scope(path), **self.rust_scope(path)}
        for head in RUST_TYPE.finditer(text):
            if head[1] == "type":
                continue
            stop = re.compile(r"[{;]").search(text, head.end()).start()
            end = closing(text, stop) if text[stop] == "{" else stop + 1
            body = RUST_COMMENT.sub("", text[head.start() : end])
            uses = meant(set(re.findall(r"(?<!\.)\b\w+\b(?!:[^:])", body)), scope) - {(path, head[2])}
            comment = comment_above(text[: head.start()])
            yield (path, head[2]), Place(path, head[2], text[: head.start()].count("\n") + 1, comment, rust_size(body), uses)


def meant(names, scope):
    """The keys of what names mean."""
    return {key for name in names for key in scope.get(name, ())}


def module_parts(path):
    """The module of a file of src/."""
    parts = path.removesuffix(".rt").split("/")[3:]
    return [] if parts == ["lib"] else parts


def comment_above(text):
    """The comment that stands over an item of Rust, without reasons why it is as it is."""
    found = []
    for line in reversed(text.rstrip("\n").split("\n")):
        if line.startswith("// "):
            found.append(line[3:])
        elif not line.startswith("#["):
            break
    return " ".join(line for line in reversed(found) if not line.startswith("Kept: "))


def rust_size(text):
    """How many lines a text without comments has."""
    return sum(1 for line in text.split("\n") if line.strip())


def listed_crates():
    """The crates, lowest first."""
    with open("crates.txt", encoding="utf-8") as f:
        return [line.split(":")[0].split()[0] for line in f if line.strip() and not line.startswith("#")]
