"""What tools/believed.py reads of .antt files: imports, definitions, and the names that a definition uses and does not bind itself."""

import collections
import re

TOKEN = re.compile(r"\"(?:\\.|[^\"\\])*\"|(?<!\S)--[^\n]*|(?<=[\w)\]}'])\.[\w']+|[^\W\d][\w']*(?:-[\w']+)*|\d+|\S")
USE = re.compile(r"(?:pub )?use ([\w.]+)\.\{(.*)\}$")
TYPED = re.compile(r"(?:(?:abbrev|unfoldable) )?(?:pub )?([^\W\d][\w'-]*) :\s")
HEAD = re.compile(r"(?:pub )?(record|data) ([^\W\d][\w']*)")
NAME = re.compile(r"[^\W\d]")
CLOSE = {"(": ")", "{": "}", "[": "]"}
PARTING = (";", ",", "|")

Group = collections.namedtuple("Group", "opened nodes")
Item = collections.namedtuple("Item", "line comment text")


class Definition:
    """A definition as it stands: its name and line, the comment above it, how many lines it has, and the names that are free in it."""

    def __init__(self, name, item):
        self.name, self.line, self.comment = name, item.line, item.comment
        self.size, self.names = 0, set()


def items(text, first=1):
    """The items of a block, each with the comment right above it: an item begins at the block's own indent and goes on while
    lines stand deeper or close its brackets."""
    found, comment, indent = [], [], None
    for number, line in enumerate(text.split("\n"), first):
        words = line.strip()
        depth = len(line) - len(line.lstrip())
        indent = depth if words and indent is None else indent
        if not words:
            comment = []
        elif depth > indent or words[0] in CLOSE.values():
            gap = number - found[-1][0] - len(found[-1][2])
            found[-1][2] += [""] * gap + [line]
        elif words.startswith("--"):
            comment.append(words[2:].strip())
        else:
            found.append([number, " ".join(comment), [line]])
            comment = []
    return [Item(number, said, "\n".join(lines)) for number, said, lines in found]


def tokens(text):
    """A text without comments as a sequence of words, signs and brackets; a field behind its dot is no name and is left out."""
    stack = [[]]
    for word in TOKEN.findall(text):
        if word in CLOSE:
            stack.append([])
            stack[-2].append(Group(word, stack[-1]))
        elif word in CLOSE.values():
            stack.pop()
        elif not re.match(r"\.\w|--", word):
            stack[-1].append(word)
    return stack[0]


def sized(text):
    """How many lines a text has, without comments and empty lines."""
    return sum(1 for line in text.split("\n") if line.strip() and not line.strip().startswith("--"))


def parted(nodes, parting=PARTING):
    """The parts of a sequence between separators."""
    parts = [[]]
    for node in nodes:
        if node in parting:
            parts.append([])
        else:
            parts[-1].append(node)
    return parts


def headed(text):
    """Head and body of a module, a record or a data type: what stands up to `where`, and the lines behind it."""
    head, body = re.match(r"(.*?\bwhere)(?:\n(.*))?$", text, re.S).groups()
    return head, body or ""


def imports(text):
    """The imports of a file: path, name there, and name here."""
    for item in items(text):
        used = USE.match(" ".join(item.text.split()))
        for named in used[2].split(",") if used else []:
            name, _, here = named.strip().partition(" as ")
            yield used[1], name, here or name


def constructors(text):
    """The constructors of a file's data types, each with its type."""
    found = {}
    for item in items(text):
        if item.text.lstrip().startswith("module _"):
            found.update(constructors(headed(item.text)[1]))
        head = HEAD.match(item.text.lstrip())
        if head and head[1] == "data":
            found.update((tokens(made.text)[0], head[2]) for made in items(headed(item.text)[1]))
    return found


class Names:
    """The names that are free in a sequence, for a file in which these names are constructors. Methods add to `bound` what they bind."""

    def __init__(self, made):
        self.constructors = made

    def pattern(self, nodes, bound):
        """The constructors of a pattern; its other names are bound."""
        found = set()
        for node in nodes:
            if isinstance(node, Group):
                found |= self.pattern(node.nodes, bound)
            elif node in self.constructors:
                found.add(node)
            elif NAME.match(node):
                bound.add(node)
        return found

    def free(self, nodes, bound):
        """The free names of a sequence; where separators part it, each part has its own binders."""
        if not any(node in PARTING for node in nodes):
            return self.part(nodes, bound)
        return set().union(*(self.part(part, set(bound)) for part in parted(nodes)))

    def part(self, nodes, bound):
        """The free names of a sequence without separators. A binder reaches to its end."""
        if "↦" in nodes:
            cut = nodes.index("↦")
            return self.pattern(nodes[:cut], bound) | self.part(nodes[cut + 1 :], bound)
        found, at = set(), 0
        while at < len(nodes):
            node, end = nodes[at], at + 1
            if node == "λ":
                end = nodes.index(".", at) + 1
                found |= self.binders(nodes[at + 1 : end - 1], bound)
            elif node == "let":
                end = let_end(nodes, at)
                found |= self.let(nodes[at + 1 : end - 1], bound)
            elif isinstance(node, Group):
                found |= self.group(node, bound)
            elif NAME.match(node) and node not in bound:
                found.add(node)
            at = end
        return found

    def binders(self, nodes, bound):
        """What a λ binds: names, names with their type, or patterns."""
        found = set()
        for node in nodes:
            typed = isinstance(node, Group) and ":" in node.nodes
            found |= self.group(node, bound) if typed else self.pattern([node], bound)
        return found

    def let(self, nodes, bound):
        """What a `let` binds, perhaps with its type, to a term in which it is not bound."""
        cut = nodes.index("=")
        left, right = nodes[:cut], nodes[cut + 1 :]
        typed = left.index(":") if ":" in left else len(left)
        found = self.free(left[typed + 1 :], set(bound)) | self.free(right, set(bound))
        return found | self.pattern(left[:typed], bound)

    def group(self, group, bound):
        """A bracket: labelled parts; names with their type, which are bound from there on; or a term."""
        nodes = group.nodes
        if group.opened == "{" and nodes[1:2] == ["="]:
            return set().union(*(self.part(part[2:], set(bound)) for part in parted(nodes, (";",))))
        cut = nodes.index(":") if ":" in nodes else 0
        if cut and all(isinstance(node, str) and NAME.match(node) for node in nodes[:cut]):
            found = self.free(nodes[cut + 1 :], set(bound))
            bound.update(nodes[:cut])
            return found
        return self.free(nodes, set(bound))


def let_end(nodes, start):
    """The place behind the `in` of the `let` at a place."""
    depth = 0
    for at in range(start, len(nodes)):
        depth += (nodes[at] == "let") - (nodes[at] == "in")
        if depth == 0:
            return at + 1
    raise ValueError("a let without its in")


class Definitions:
    """The definitions of a file by name, in its order. `types_only`: of a file of proofs, what stands in the types of its laws alone."""

    def __init__(self, text, made, types_only=False):
        self.names, self.found, self.types_only = Names(made), {}, types_only
        self.read(text, 1, set(), set())

    def read(self, text, first, bound, carried):
        """A block: `bound` are the parameters of the modules around it, `carried` the names in their types, which all that is in them carries."""
        for item in items(text, first):
            words = item.text.lstrip()
            if words.startswith("module _"):
                self.read_module(item, bound, carried)
            elif HEAD.match(words):
                self.read_type(item, bound, carried)
            elif not re.match(r"(pub )?(use|mod) |unfolding |#", words):
                self.read_function(item, bound, carried)

    def read_module(self, item, bound, carried):
        """A module with parameters."""
        head, body = headed(item.text)
        inner = set(bound)
        names = self.names.free(tokens(head)[2:-1], inner)
        self.read(body, item.line + head.count("\n") + 1, inner, carried | names)

    def read_type(self, item, bound, carried):
        """A record or a data type. Its parameters are bound in it, and each field of a record in those behind it."""
        head, body = headed(item.text)
        kind, name = HEAD.match(item.text.lstrip()).groups()
        made = self.made(name, item)
        inner = set(bound)
        nodes = tokens(head)
        made.names |= carried | self.names.free(nodes[nodes.index(name) + 1 : -1], inner)
        for field in items(body):
            label, _, *typed = [node for node in tokens(field.text) if node != "pub"]
            made.names |= self.names.free(typed, set(inner))
            if kind == "record":
                inner.add(label)

    def read_function(self, item, bound, carried):
        """The type of a definition, or one of its clauses."""
        nodes = tokens(item.text)
        typed = TYPED.match(item.text.lstrip())
        if typed:
            made = self.made(typed[1], item)
            made.names |= carried | self.names.free(nodes[nodes.index(":") + 1 :], set(bound))
        elif not self.types_only:
            made, cut, inner = self.found[nodes[0]], nodes.index("="), set(bound)
            made.size += sized(item.text)
            made.names |= self.names.pattern(nodes[1:cut], inner)
            made.names |= self.names.free(nodes[cut + 1 :], inner)

    def made(self, name, item):
        """A definition that begins here."""
        if name in self.found:
            raise ValueError(f"{name} stands twice in a file")
        made = self.found[name] = Definition(name, item)
        made.size = sized(item.text)
        return made
