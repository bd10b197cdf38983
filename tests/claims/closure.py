"""Which definitions of specs/ a statement uses, and so which files a reader of it must believe.

A file of specs/ is read as declarations (`abbrev`, `unfoldable`, `record`, `data`), each with the clauses that define it. A name in a
clause stands for what it binds itself (arguments, `λ`, `let`, a record's fields), else for a declaration or a constructor of the
file, else for what a `use` line brings in. Names of the kit and of the code's own types (`declared`) lead to no file of specs/.
"""
import functools
import pathlib
import re

# What the code is proved equal to, by the contracts of the public operations (`standing_of` too, the reply that stands in a record, and
# `blank_of`, what a refused start hands back). A statement says of these what it says, and nothing behind them need be believed.
STOP = {"simplex_of", "bfgs_of", "lbfgs_of", "search_of", "differences_of", "answer_of", "valid_of", "standing_of", "blank_of"}
USE = re.compile(r"(?:unfoldable )?(?:pub )?use Rattle\.(\w+)\.specs\.([\w-]+)(?:\.\{(.*)\}| as (\S+))")
DECLARATION = re.compile(r" *(?:(?:abbrev|unfoldable|pub) )*(?:(record|data) )?([^\s:({]+)\s*(.*)")
STARTS = re.compile(r" *(?:(?:abbrev|unfoldable) (?:pub )?(?!use )|pub (?:record|data) |(?:record|data) (?!\{))")
TOKEN = re.compile(r"[^\s(){};,.λ→×=:]+")


class Declaration:
    def __init__(self, name, kind, scope):
        self.name, self.kind, self.scope, self.lines = name, kind, scope, []

    def clauses(self):
        """Its parts, each with the names that are bound in all of it: a record or a data type whole, else its type and each equation."""
        if self.kind:
            fields = set(re.findall(r"^ *(?:pub )?([^\s:]+) *:", "\n".join(self.lines[1:]), re.M))
            return [("\n".join(self.lines), fields)]
        out, indent = [], len(self.lines[0]) - len(self.lines[0].lstrip())
        for line in self.lines:
            if len(line) - len(line.lstrip()) == indent:
                out.append(("", set()))
            out[-1] = (out[-1][0] + line + "\n", set())
        return out

    def constructors(self):
        return re.findall(r"^ +([^\s:]+) *:", "\n".join(self.lines[1:]), re.M) if self.kind == "data" else []


class Module:
    """A file of specs/: its declarations by name, and what its `use` lines bring in."""

    def __init__(self, text):
        self.declared, self.names, self.aliases = {}, {}, {}
        held, scope = None, ""
        for line in text.split("\n"):
            line = re.sub(r"(^| )--( .*)?$", "", line)
            used = USE.match(line)
            if used:
                self.use(*used.groups())
            elif line.startswith("module _"):
                held, scope = None, line
            elif STARTS.match(line):
                kind, name = DECLARATION.match(line)[1], DECLARATION.match(line)[2]
                scope = scope if line.startswith(" ") else ""
                held = self.declared.setdefault(name, Declaration(name, kind, scope))
                held.lines.append(line)
            elif held and line.strip() and not line.startswith(("infix", "use ")):
                held.lines.append(line)
        self.makes = {c: d.name for d in self.declared.values() for c in d.constructors()}

    def use(self, crate, module, names, alias):
        if alias:
            self.aliases[alias] = crate, module
        for name in (names or "").split(","):
            old, _, new = name.strip().partition(" as ")
            self.names[new or old] = crate, module, old


def parts(name):
    """What stands for a name in a text: of `◌⊑◌` the sign alone."""
    return [part for part in name.split("◌") if part]


def bound(text):
    """The names that a clause binds by `(x : ..)`, `λ x.` or `let x =`."""
    out = set(re.findall(r"\blet (\S+) (?::[^=]*)?=", text))
    for names in re.findall(r"[({]([^\s(){}:][^(){}:]*?) :", text) + re.findall(r"λ ([^.]*)\.", text):
        out |= set(re.findall(r"[^\s(){}:,]+", re.sub(r":[^)]*", "", names)))
    return out


class Specs:
    """Every file of specs/."""

    def __init__(self):
        self.modules = {}
        for path in sorted(pathlib.Path("crates").glob("*/specs/*.antt")):
            if path.stem != "Lib":
                self.modules[path.parts[-3], path.stem] = Module(path.read_text())

    def found(self, crate, module, name, seen=()):
        """Where a name is declared, as crate, module and name, through what passes it on; None where no file of specs/ has it."""
        here = self.modules.get((crate, module))
        if here is None or (crate, module, name) in seen:
            return None
        if name in here.declared:
            return crate, module, name
        if name in here.makes:
            return crate, module, here.makes[name]
        return self.found(*here.names[name], (*seen, (crate, module, name))) if name in here.names else None

    def named(self, crate, module, declaration):
        """What the clauses of a declaration name."""
        here, out = self.modules[crate, module], set()
        signs = {sign: name for name in [*here.declared, *here.makes, *here.names] for sign in parts(name)}
        for text, own in declaration.clauses():
            own |= bound(declaration.scope) | bound(text)
            left = re.split(r" =(?:\s|$)", text)[0] if re.search(r" =(?:\s|$)", text) and not declaration.kind else ""
            own |= {word for word in TOKEN.findall(left) if not self.makes(crate, module, signs.get(word, word))} - {declaration.name}
            # A field's name, before its value or behind a dot, is no name of a declaration; behind a module's it is one.
            whole = re.sub(r"([{;]\s*)\S+ =(?=\s)", r"\1", declaration.scope + "\n" + text)
            plain = re.sub(rf"\.{TOKEN.pattern}", " ", whole)
            out |= {self.found(crate, module, signs[word]) for word in TOKEN.findall(plain) if word in signs and word not in own}
            for alias, there in here.aliases.items():
                out |= {self.found(*there, word) for word in re.findall(rf"(?<![\w.-]){re.escape(alias)}\.({TOKEN.pattern})", whole)}
        return out - {None}

    def makes(self, crate, module, name):
        """Whether a name is a constructor's."""
        here = self.modules.get((crate, module))
        if here is None:
            return name[:1].isupper()
        return name in here.makes or (name in here.names and self.makes(*here.names[name]))

    def used(self, roots):
        """All declarations that the roots use, as crate, module and name, and the roots themselves; what stands behind STOP is left out."""
        seen, todo = set(), set(roots)
        while todo:
            crate, module, name = there = todo.pop()
            if there not in seen and name not in STOP:
                seen.add(there)
                todo |= self.named(crate, module, self.modules[crate, module].declared[name])
        return seen


@functools.cache
def specs():
    """They are read once."""
    return Specs()


def file_of(place):
    return f"crates/{place[0]}/specs/{place[1]}.antt"
