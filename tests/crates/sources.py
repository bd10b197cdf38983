"""What a crate leans on, read off its files: the crates that it names, and those that declare a type that it reaches."""
import pathlib
import re

# Libraries of the kit that a crate here may name; std is linked always and never listed.
KIT = ("check", "bytes", "os", "io", "libc")
# A `use` item: the first word of its path and the others, and the names in braces, or the one name.
USED = re.compile(r"(?m)^ *(?:pub )?use ([a-z_0-9]+)::((?:\w+::)*)(?:\{([^}]*)\}|(\w+(?: as \w+)?));")
CODE, LOGIC = (".rt",), (".rt", ".antt")
TYPE = re.compile(r"\b[A-Z]\w*")


def text_of(path):
    """A file without its comments."""
    mark = "//" if path.suffix == ".rt" else "--"
    return re.sub(rf"(?m)(^| ) *{mark}.*$", "", path.read_text())


def texts(crate, parts, endings):
    paths = (path for part in parts for path in sorted(pathlib.Path("crates", crate, part).rglob("*")))
    return [text_of(path) for path in paths if path.suffix in endings]


class Source:
    """The code of a crate: what it names, its types with the types of their fields, its functions with those of their heads."""

    def __init__(self, crate):
        code = "\n".join(texts(crate, ["src"], CODE))
        logic = "\n".join(texts(crate, ["src", "specs", "proofs"], LOGIC))
        self.modules = set(re.findall(r"^ *(?:pub )?mod (\w+);", code, re.M))
        self.named = set(re.findall(r"(?<![\w:])([a-z_0-9]+)::", code)) - self.modules
        self.named |= set(re.findall(r"\bRattle\.([a-z_0-9]+)\.", logic))
        self.types = {}
        for name, body in re.findall(r"\b(?:struct|enum) (\w+)\s*(\{.*?\n\}|\(.*?\);)", code, re.S):
            self.types[name] = TYPE.findall(body)
        self.heads = {name: TYPE.findall(head) for name, head in re.findall(r"\bfn (\w+)(\([^{]*?)\s*(?:requires|ensures|\{)", code)}
        self.uses = {}
        for first, inner, several, one in USED.findall(code):
            for name, alias in re.findall(r"(\w+)(?: as (\w+))?", several or one):
                name = f"{first}::{inner}".split("::")[-2] if name == "self" else name
                self.uses[alias or name] = crate if first in self.modules else first, name
        # A module that a `use` brings in, as `io` of std, is no crate of that name.
        self.named -= {name for name, (first, _) in self.uses.items() if first != name}
        self.mentioned = set(TYPE.findall(code))
        self.called = set(re.findall(r"(?<![\w:])(?:([a-z_0-9]+)::)?(\w+)\(", code))


class Sources:
    """The code of every crate of crates/."""

    def __init__(self):
        self.crates = sorted(path.name for path in pathlib.Path("crates").iterdir() if path.is_dir())
        self.of = {crate: Source(crate) for crate in self.crates}

    def found(self, crate, name, kind, seen=()):
        """Where a type or a function that a crate calls by this name is declared, through what passes it on."""
        if crate not in self.of or (crate, name) in seen:
            return None
        if name in getattr(self.of[crate], kind):
            return crate, name
        there = self.of[crate].uses.get(name)
        return self.found(*there, kind, (*seen, (crate, name))) if there else None

    def begun(self, crate):
        """The types that the crate's code names, and those in the head of a function that it calls."""
        own = self.of[crate]
        named = {self.found(crate, name, "types") for name in own.mentioned}
        for where, name in own.called:
            function = self.found(where if where in self.of else crate, name, "heads")
            if function:
                named |= {self.found(function[0], kind, "types") for kind in self.of[function[0]].heads[function[1]]}
        return named - {None}

    def reached(self, crate):
        """The crates that declare a type that is reached through fields."""
        seen, todo = set(), self.begun(crate)
        while todo:
            there = todo.pop()
            if there not in seen:
                seen.add(there)
                fields = self.of[there[0]].types[there[1]]
                todo |= {self.found(there[0], name, "types") for name in fields} - {None}
        return {declaring for declaring, _ in seen}

    def leans_on(self, crate):
        return ({name for name in self.of[crate].named if name in self.of or name in KIT} | self.reached(crate)) - {crate}
