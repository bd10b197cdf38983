"""The items of a file of Rattle: its constants, its functions with their bodies, and which tokens of a body are code."""
import dataclasses
import pathlib
import re

TOKEN = re.compile(
    r"""(?P<space>\s+|//[^\n]*)
    |(?P<bytes>b"(?:\\.|[^"\\])*")
    |(?P<byte>b'(?:\\x[0-9a-fA-F]{2}|\\.|[^'\\])')
    |(?P<str>"(?:\\.|[^"\\])*")
    |(?P<life>'\w+)
    |(?P<float>\d[\d_]*(?:\.\d[\d_]*(?:[eE][+-]?\d+)?|[eE][+-]?\d+)(?:f32|f64)?)
    |(?P<int>0x[\da-fA-F_]+|\d[\d_]*)(?P<suffix>(?:u8|u16|u32|u64|usize|i8|i16|i32|i64|isize)?)
    |(?P<word>[^\W\d]\w*)
    |(?P<op>\.\.=|<<=|>>=|::|->|=>|==|!=|<=|>=|&&|\|\||\+=|-=|\*=|/=|%=|\^=|&=|\|=|<<|>>|\.\.|.)""",
    re.VERBOSE | re.DOTALL,
)
KEYWORDS = {"return", "if", "while", "in", "else", "match", "let", "mut", "loop", "for", "break", "move"}
CLAUSES = {"requires", "ensures", "ghost"}


@dataclasses.dataclass
class Token:
    kind: str
    text: str
    at: int


@dataclasses.dataclass
class Constant:
    """A constant of a file: where its value begins and ends among the file's tokens, and where its type does."""

    text: str
    toks: list
    value: int
    end: int
    kind: int

    def spelled(self):
        return self.text[self.toks[self.value].at : self.toks[self.end].at]


@dataclasses.dataclass
class Function:
    """A function of a file: the type that it is a method of, and its name; where in the text it begins, its name, its end; its
    body's first and last tokens. Before it stand its attributes, of which `tactics` are those that a copy needs, and before the first
    of an `impl` block its head: `start` is where these begin. `block` is the head that a copy of a method needs. Where it is `lone`, as
    in a trait or a trait's `impl`, no copy may stand beside it."""

    owner: str
    name: str
    start: int
    begin: int
    at: int
    end: int
    body: tuple
    tactics: str
    block: str = ""
    lone: bool = False


def tokens(text):
    out = []
    for found in TOKEN.finditer(text):
        kind = found.lastgroup if found.lastgroup != "suffix" else "int"
        if kind != "space":
            out.append(Token(kind, found[0], found.start()))
    return out


def close_of(toks, i):
    """The index of the bracket that closes the one at i."""
    depth = 0
    while True:
        depth += {"(": 1, "[": 1, "{": 1, ")": -1, "]": -1, "}": -1}.get(toks[i].text, 0)
        if depth == 0:
            return i
        i += 1


def angle_close(toks, i):
    """The index of the `>` that closes the `<` at i."""
    depth = 0
    while True:
        depth += {"<": 1, ">": -1, ">>": -2}.get(toks[i].text, 0)
        if depth <= 0:
            return i
        i += 1


def upto(toks, i, *ends):
    """The index of the first of these tokens from i on, outside brackets that open on the way."""
    while toks[i].text not in ends:
        i = close_of(toks, i) + 1
    return i


def past_clauses(toks, i):
    """The index behind the clauses that begin at i. A clause may have a name."""
    while toks[i].text in CLAUSES:
        i = close_of(toks, upto(toks, i, "{")) + 1
    return i


def type_name(toks):
    """A type or a trait as the prover has it within the name of an `impl`: `Option<&u64>` is OptionRefU64, and `()` Unit."""
    out = ""
    for i, token in enumerate(toks):
        if token.kind == "word":
            out += "".join(part[:1].upper() + part[1:] for part in token.text.split("_"))
        elif token.text == "&" or token.text == "(" and toks[i + 1].text == ")":
            out += "Ref" if token.text == "&" else "Unit"
    return out


def owner_of(toks, i, end):
    """The type that the functions of a block belong to, by the block's head, and whether they stand alone: a trait, and a type with a
    trait, have each function once."""
    if toks[i].text == "trait":
        return toks[i + 1].text, True
    first = angle_close(toks, i + 1) + 1 if toks[i + 1].text == "<" else i + 1
    to = next((k for k in range(first, end) if toks[k].text == "for"), None)
    if to is not None:
        return type_name(toks[to + 1 : end]) + type_name(toks[first:to]), True
    while toks[first + 1].text == "::":
        first += 2
    return toks[first].text, False


def tactics_of(text, toks, marks):
    """The tactics among attributes, which are the proof's: a copy of the function has them too. It is no function of C."""
    return "".join(text[toks[i].at : toks[end].at + 1] + "\n" for i, end in marks if toks[i + 2].text == "tactic")


def block_of(text, toks, i, marks):
    """The functions of an `impl` or a trait behind its attributes, and the index of its end."""
    start = upto(toks, i, "{")
    end = close_of(toks, start)
    owner, lone = owner_of(toks, i, start)
    constants, functions = items_of(text, toks, start + 1, end)
    if constants:
        raise ValueError(f"a constant of a block is not known: {', '.join(constants)}")
    for k, function in enumerate(functions):
        function.owner, function.lone = owner, lone
        function.block = tactics_of(text, toks, marks) + text[toks[i].at : toks[start].at].rstrip()
        function.start = function.start if k else toks[marks[0][0] if marks else i].at
    return functions, end


def function_of(text, toks, i, marks):
    """The function at i behind its attributes, and the index of its end; none where it has no body."""
    first, body = i, i + 2
    while toks[first - 1].text in ("pub", "const"):
        first -= 1
    while toks[body].text not in ("{", ";"):
        body = past_clauses(toks, body) if toks[body].text in CLAUSES else close_of(toks, body) + 1
    end = close_of(toks, body)
    start, tactics = marks[0][0] if marks else first, tactics_of(text, toks, marks)
    places = [toks[k].at for k in (start, first, i + 1)]
    return [Function("", toks[i + 1].text, *places, toks[end].at + 1, (body, end), tactics)] if toks[body].text == "{" else [], end


def items_of(text, toks, i=0, end=None):
    """The constants of a file, or of a block of it, by their names, and its functions."""
    constants, functions, marks = {}, [], []
    while i < (len(toks) if end is None else end):
        word, start = toks[i].text, i
        known = toks[i + 2].text == ";" if word == "mod" else toks[i + 1].text != "fn" if word == "ghost" else True
        if word in ("static", "macro_rules") or not known:
            raise ValueError(f"an item of a kind that is not known: {word}")
        if word == "#":
            i = close_of(toks, upto(toks, i, "["))
            marks += [(start, i)] if toks[start + 1].text == "[" else []
        elif word == "const" and toks[i + 1].text != "fn":
            value = upto(toks, i + 3, "=") + 1
            i = upto(toks, value, ";")
            constants[toks[start + 1].text] = Constant(text, toks, value, i, start + 3)
        elif word in ("impl", "trait", "fn"):
            found, i = (function_of if word == "fn" else block_of)(text, toks, i, marks)
            functions += found
        elif word in ("use", "ghost", "type"):
            i = upto(toks, i, ";")
        elif word in ("struct", "enum"):
            i = close_of(toks, upto(toks, i, "{", ";"))
        elif word == "{":
            i = close_of(toks, i)
        if i > start and word != "#":
            marks = []
        i += 1
    return constants, functions


def texts_of(crate):
    """The files of a crate's src/, by their names."""
    return {path.name: path.read_text() for path in sorted(pathlib.Path("crates", crate, "src").glob("*.rt"))}


def functions_in(crate, texts):
    """Each function of a crate's files, by its path as the prover has it, with its file: a method's path is its type's, but that of a
    trait's method is the file's."""
    modules = {file: f"{crate}::" if file in ("lib.rt", "main.rt") else f"{crate}::{file.removesuffix('.rt')}::" for file in texts}
    types = {file: re.findall(r"^(?:pub )?(?:struct|enum) (\w+)", text, re.MULTILINE) for file, text in texts.items()}
    homes = {own: modules[file] for file in texts for own in types[file]}
    out = {}
    for file, text in texts.items():
        for it in items_of(text, tokens(text))[1]:
            is_own = it.lone or it.owner in types[file] or it.owner not in homes
            out[(modules[file] if is_own else homes[it.owner]) + (f"{it.owner}::" if it.owner else "") + it.name] = file, it
    return out


def arms(toks, i):
    """The indices of the patterns of a match whose block opens at i."""
    i, end = i + 1, close_of(toks, i)
    while i < end:
        stop = upto(toks, i, "=>", "if")
        yield from range(i, stop)
        i = upto(toks, stop, "=>") + 1
        i = close_of(toks, i) + 1 if toks[i].text == "{" else upto(toks, i, ",", "}")
        i += toks[i].text == ","


def patterns_of(toks, start, end):
    """The indices of a body's tokens that stand in patterns."""
    out = set()
    for i in range(start, end):
        if toks[i].text in ("let", "for"):
            out.update(range(i + 1, upto(toks, i + 1, "=", ":", ";", "in")))
        elif toks[i].text == "match":
            out.update(arms(toks, upto(toks, i, "{")))
        elif toks[i].text == "matches" and toks[i + 1].text == "!":
            out.update(range(upto(toks, i + 3, ",") + 1, upto(toks, i + 3, ")", "if")))
    return out


def operand_before(toks, i):
    before = toks[i - 1]
    if before.kind == "word":
        return before.text not in KEYWORDS
    return before.text in (")", "]", "?") or before.kind in ("int", "float", "byte", "bytes", "str")


def past_closure(toks, i):
    """The index of a closure's body, whose head begins at i."""
    i = (upto(toks, i + 1, "|") if toks[i].text == "|" else i) + 1
    return past_clauses(toks, upto(toks, i, *CLAUSES, "{") if toks[i].text == "->" else i)


def body_places(toks, start, end):
    """The indices of a body's tokens that are code, and whether each stands in a pattern: not types, not lengths of arrays, not
    casts, not heads and clauses of closures, not attributes."""
    i, open_brackets, patterns = start, [], patterns_of(toks, start, end)
    while i < end:
        text = toks[i].text
        if text in "([{":
            open_brackets.append(text)
        elif text in ")]}":
            open_brackets.pop()
        if text == "as":
            i += 2
        elif text == ":" and i - 1 in patterns and i not in patterns:
            i = upto(toks, i + 1, "=", ";")
        elif text == "::" and toks[i + 1].text == "<":
            i = angle_close(toks, i + 1) + 1
        elif text == "<" and not operand_before(toks, i):
            i = angle_close(toks, i) + 1
        elif text in ("|", "||") and i not in patterns and not operand_before(toks, i):
            i = past_closure(toks, i)
        elif text == "#":
            i = close_of(toks, i + 1) + 1
        elif text == ";" and open_brackets[-1] == "[":
            while toks[i].text != "]":
                i += 1
        else:
            yield i, i in patterns
            i += 1
