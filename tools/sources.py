"""Reads the sources: the items of a .rt file, with their documentation and their signatures without clauses.

It rests on the layout that `rt fmt` gives: an item begins and ends at its own indentation.
"""
import glob
import os
import re

TOP = os.path.dirname(os.path.dirname(os.path.abspath(__file__)))
CLAUSE = re.compile(r"\s*(requires|ensures|ghost)\b")
HEAD = re.compile(r"(pub(\([a-z]+\))? )?((?:const )?fn|struct|enum|trait|type|const|static) (\w+)|impl\b")


def read(path):
    with open(path, encoding="utf-8") as file:
        return file.read()


class Item:
    """A function, struct, enum, trait, constant or impl: its documentation, its signature, the lines of its body and its clauses."""

    def __init__(self, docs, head, signature, clauses, body, place):
        self.docs, self.signature, self.clauses, self.body, self.place = docs, signature, clauses, body, place
        self.kind, self.name = (head[3].split()[-1], head[4]) if head[3] else ("impl", None)
        self.is_public = head[1] == "pub "

    def type_name(self):
        """Of an impl: the type that it is for."""
        return re.match(r"\w+", without_generics(self.whole()).split(" for ")[-1].strip())[0]

    def trait_name(self):
        parts = without_generics(self.whole()).split(" for ")
        return re.match(r"\w+", parts[0].strip())[0] if len(parts) > 1 else None

    def whole(self):
        return " ".join(line.strip() for line in self.signature)

    def parameters(self):
        """How many parameters a function has, `self` among them."""
        text = self.whole()
        text = text[text.index("fn ") :]
        start = text.index("(") if "<" not in text.split("(")[0] else closing(text, text.index("<"))
        inner = text[start + 1 : closing(text, start) - 1].strip().rstrip(",")
        depth, count = 0, bool(inner)
        for at, letter in enumerate(inner):
            depth += letter in "([{<"
            depth -= letter in ")]}" or letter == ">" and inner[at - 1] != "-"
            count += letter == "," and not depth
        return count


def closing(text, at):
    """The place after the bracket that closes the one at `at`; `->` closes nothing."""
    depth = 0
    while True:
        depth += text[at] in "([{<"
        depth -= text[at] in ")]}" or text[at] == ">" and text[at - 1] != "-"
        at += 1
        if not depth:
            return at


def without_generics(text):
    """What stands after `impl` and its type parameters."""
    text = text[len("impl") :].strip()
    return text[closing(text, 0) :].strip() if text.startswith("<") else text


def items(lines, place, indent=""):
    """The items at an indentation, in their order."""
    found, docs, at = [], [], 0
    while at < len(lines):
        line = lines[at]
        text = line[len(indent) :] if line.startswith(indent) and not line.startswith(indent + " ") else None
        if text is not None and text.startswith("///"):
            docs.append(text[3:].strip())
        elif text is not None and HEAD.match(text):
            start = at
            at = end_of_head(lines, at, indent)
            signature = signature_of(lines[start : at + 1], indent)
            clauses = sum(bool(re.match(r"\s+(requires|ensures)\b", it)) for it in lines[start : at + 1])
            body = []
            if lines[at].rstrip().endswith("{") and lines[at].rstrip() != lines[at].rstrip("{"):
                end = next(k for k in range(at + 1, len(lines)) if lines[k].rstrip() in (indent + "}", indent + "};"))
                body = lines[at + 1 : end]
                at = end
            found.append(Item(docs, HEAD.match(text), signature, clauses, body, place))
            docs = []
        elif text is None or not text.startswith("#"):
            docs = docs if text is not None and text.startswith("//") else []
        at += 1
    return found


def end_of_head(lines, at, indent):
    """The line that ends a head: its `{` or `;`, after the clauses."""
    in_clauses = False
    for k in range(at, len(lines)):
        line = lines[k].rstrip()
        in_clauses = in_clauses or bool(CLAUSE.match(line)) and k > at
        if line == indent + "{" or line.endswith("{}"):
            return k
        if line.endswith(";") and (not in_clauses or line.count("{") <= line.count("}")):
            return k
        if not in_clauses and line.endswith("{") and not line.startswith(indent + "  "):
            return k
    return len(lines) - 1


def signature_of(lines, indent):
    kept = []
    for line in lines:
        if kept and CLAUSE.match(line):
            break
        kept.append(line[len(indent) :].rstrip())
    while kept and kept[-1] in ("{", ""):
        kept.pop()
    kept[-1] = re.sub(r"\s*(\{\}?|;)$", "", kept[-1])
    return kept


class Crate:
    def __init__(self, name):
        self.name, self.items = name, []
        self.root = read(f"{TOP}/crates/{name}/src/{'lib' if os.path.exists(f'{TOP}/crates/{name}/src/lib.rt') else 'main'}.rt")
        for path in sorted(glob.glob(f"{TOP}/crates/{name}/src/**/*.rt", recursive=True)):
            self.items += items(read(path).split("\n"), os.path.relpath(path, TOP))

    def exports(self):
        """The names that its root hands on, each with the crate or module that it names."""
        for path, names in re.findall(r"(?m)^pub use (\w+)::(?:\{([^}]*)\}|\w+);", self.root):
            for name in re.findall(r"\w+", names):
                yield path, name
        for path, name in re.findall(r"(?m)^pub use (\w+)::(\w+);", self.root):
            yield path, name


KNOWN = {}


def crate(name):
    if name not in KNOWN:
        KNOWN[name] = Crate(name)
    return KNOWN[name]


def defined(name, at):
    """The public item with a name, and its crate: that of crate `at`, or what this hands on."""
    for item in crate(at).items:
        if item.name == name and item.kind != "impl" and item.is_public:
            return at, item
    for path, exported in crate(at).exports():
        if exported == name and os.path.isdir(f"{TOP}/crates/{path}"):
            return defined(name, path)
    raise LookupError(f"{name}, which {at} hands on, is nowhere")
