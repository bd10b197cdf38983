"""The sites of a file of Rattle: each operator, comparison and constant of its functions' bodies, and what it is changed to.

Left alone: comments, contracts, `use` items, types (with the lengths of arrays), casts, field numbers.
"""
import dataclasses
import re

import items

# For each operator its changes, in the order in which they are tried: the second is for a site whose first change the front
# end refuses, or the prover refuses for the shape of its proof alone.
BINARY = {
    "+": ["-", "*"], "-": ["+", "*"], "*": ["/", "+"], "/": ["*", "+"], "%": ["/", "*"],
    "<<": [">>"], ">>": ["<<"], "&": ["|", "^"], "|": ["&", "^"], "^": ["&", "|"],
    "<": ["<=", ">"], "<=": ["<", ">="], ">": [">=", "<"], ">=": [">", "<="], "==": ["!="], "!=": ["=="],
    "&&": ["||"], "||": ["&&"], "..": ["..="], "..=": [".."],
    "+=": ["-=", "*="], "-=": ["+=", "*="], "*=": ["/=", "+="], "/=": ["*=", "+="], "%=": ["/=", "*="],
    "<<=": [">>="], ">>=": ["<<="], "&=": ["|=", "^="], "|=": ["&=", "^="], "^=": ["&=", "|="],
}  # fmt: skip
UNARY = {"-": [""], "!": ["", "!!"], "..": ["..="], "..=": [".."]}
RANGES = ("..", "..=")
ESCAPES = {"n": 10, "r": 13, "t": 9, "\\": 92, "0": 0, "'": 39, '"': 34}
WIDTHS = {"8": 8, "16": 16, "32": 32, "64": 64, "size": 64}
# The types' constants: of integers to the next within the type, of floats to what a float that is written is.
LIMITS = {f"u{k}::MAX": [f"{2**w - 2:#_x}"] for k, w in WIDTHS.items()}
LIMITS |= {f"i{k}::MAX": [f"{2 ** (w - 1) - 2:#_x}"] for k, w in WIDTHS.items()}
LIMITS |= {f"i{k}::MIN": [f"-{2 ** (w - 1) - 1:#_x}"] for k, w in WIDTHS.items()}
LIMITS |= {f"f64::{name}": ["1.0"] for name in ("NAN", "INFINITY", "NEG_INFINITY")} | {"f64::EPSILON": [repr(2.0**-51)]}


@dataclasses.dataclass
class Site:
    """A place of a file that is changed. `constants` has, for a change that is a constant's name, that constant's item and its
    value; `item` is the function, by its places in the file."""

    file: str
    line: int
    column: int
    function: str
    start: int
    end: int
    old: str
    news: list
    constants: dict
    item: items.Function

    def key(self):
        return f"{self.file}:{self.line}:{self.column} {self.function} {self.old}"

    def new(self, which):
        return self.news[which]

    def needed(self, which):
        """The lines that a change needs behind the file's last."""
        return [self.constants[self.new(which)][0]] if self.constants else []

    def lines(self, text, which):
        """The line of the site, as it is and with the change."""
        begin, end = text.rfind("\n", 0, self.start) + 1, text.find("\n", self.end)
        new = self.constants[self.new(which)][1] if self.constants else self.new(which)
        after = text[begin : self.start] + new + text[self.end : end]
        return text[begin:end].strip(), after.strip()


def byte_of(text):
    """The number of the byte that b'..' is."""
    inner = text[2:-1]
    if not inner.startswith("\\"):
        return ord(inner)
    return int(inner[2:], 16) if inner[1] == "x" else ESCAPES[inner[1]]


def other_text(text):
    """A byte string, or a string that ends in ASCII, with its last byte changed."""
    head, inner = text[: text.index('"') + 1], text[text.index('"') + 1 : -1]
    parts = re.findall(r"\\x[0-9a-fA-F]{2}|\\.|.", inner, re.DOTALL)
    parts[-1] = f"\\x{byte_of(f'b{chr(39)}{parts[-1]}{chr(39)}') ^ 1:02x}"
    return f'{head}{"".join(parts)}"'


def literal_changes(token):
    """What a literal is changed to: k to k + 1, 0.0 to 1.0, x to 2x, true to false."""
    if token.kind == "byte":
        return [f"{(byte_of(token.text) + 1) % 256}u8"]
    if token.kind in ("bytes", "str"):
        return [other_text(token.text)]
    if token.kind == "float":
        value = float(token.text.replace("_", "").removesuffix("f64"))
        return [repr(2 * value if value else 1.0)]
    if token.kind == "int":
        digits = re.match(r"0x[\da-fA-F_]+|[\d_]+", token.text)[0]
        value, suffix = int(digits.replace("_", ""), 0), token.text[len(digits) :]
        form = "{:#x}{}" if digits.startswith("0x") else "{}{}"
        return [form.format(k, suffix) for k in (value + 1, value - 1) if k >= 0]
    return {"true": ["false"], "false": ["true"]}.get(token.text)


def is_literal(toks, i):
    kinds = ("byte", "bytes", "str", "float", "int")
    return (toks[i].kind in kinds or toks[i].text in ("true", "false")) and toks[i - 1].text != "."


def value_at(toks, i):
    """How many tokens the literal or the type's constant at i has, and what it is changed to; none where there is none."""
    if is_literal(toks, i):
        return 1, literal_changes(toks[i])
    limit = "".join(token.text for token in toks[i : i + 3])
    return (3, LIMITS[limit]) if limit in LIMITS else (0, [])


def operator_changes(toks, i, in_pattern):
    """What an operator is changed to. In a pattern the bars part its cases, and `..` is a range only where it has an end, as it is
    behind a comma or at the start of a block: there it is the rest of a struct."""
    word, has_left = toks[i].text, items.operand_before(toks, i)
    if word in RANGES:
        last = toks[items.upto(toks, i + 1, ")", "]", "}", ",", ";", "=>")].text
        if toks[i + 1].text in (")", "]", "}", ",", ";", "=>", "{") or not has_left and (in_pattern or last == "}"):
            return []
    elif in_pattern and word != "-":
        return []
    return (BINARY if has_left else UNARY).get(word, [])


def constants_of(text):
    return items.items_of(text, items.tokens(text))[0]


def used_constants(text):
    """The constants that a file has from others: of each its name, and its crate's."""
    out = {}
    for crate, several, one in re.findall(r"^use (\w+)(?:::\w+)*::(?:\{([^}]*)\}|(\w+));$", text, re.MULTILINE):
        out |= {name: crate for name in re.findall(r"\w+", several or one) if re.fullmatch(r"[A-Z][A-Z0-9_]+", name)}
    return out


def constant_uses(constant, name, number):
    """For each literal of a constant: what it is, and by the names of constants with it changed their items and values."""
    text, toks, value, end, kind = (getattr(constant, field.name) for field in dataclasses.fields(constant))
    for k in range(value, end):
        count, found = value_at(toks, k)
        if count:
            last = toks[k + count - 1]
            old, tail = text[toks[k].at : last.at + len(last.text)], text[last.at + len(last.text) : toks[end].at]
            changes = [text[toks[value].at : toks[k].at] + new + tail for new in found]
            names = [f"{name}_{number}_{k - value}_{j}" for j in range(len(changes))]
            type_ = text[toks[kind].at : toks[value].at]
            items_ = {other: (f"const {other}: {type_}{new};", new) for other, new in zip(names, changes)}
            yield f"{old} of {name} at {k - value}", items_


def sites_of(file, text, functions, used):
    """Every site of a file that has these functions, and the constants `used` from others."""
    toks = items.tokens(text)
    constants = constants_of(text) | used
    out = []

    def add(i, old, news, constants=None, count=1):
        at, end = toks[i].at, toks[i + count - 1].at + len(toks[i + count - 1].text)
        line, column = text.count("\n", 0, at) + 1, at - text.rfind("\n", 0, at)
        out.append(Site(file, line, column, function, at, end, old, list(news), constants or {}, item))

    for function, item in functions.items():
        for i, in_pattern in items.body_places(toks, *item.body):
            token = toks[i]
            count, changes = value_at(toks, i)
            if count:
                add(i, text[token.at : toks[i + count - 1].at] + toks[i + count - 1].text, changes, count=count)
            elif token.kind == "word" and token.text in constants and toks[i - 1].text not in (".", "::"):
                for old, changes in constant_uses(constants[token.text], token.text, len(out)):
                    add(i, old, changes, changes)
            elif token.kind == "op" and (changes := operator_changes(toks, i, in_pattern)):
                add(i, token.text, changes)
            elif re.fullmatch(r"[A-Z][A-Z0-9_]+", token.text) and value_at(toks, i - 2)[0] != 3:
                raise ValueError(f"{file}: {token.text} is no constant that the file has")
    return out


def copied(text, item, copy, site=None, which=0):
    """The text of a function under the name of its copy, with a change of a site in it; of a method in a block of its type."""
    head, name = item.tactics + text[item.begin : item.at] + copy.split("::")[-1], item.at + len(item.name)
    body = text[name : item.end]
    if site is not None:
        body = text[name : site.start] + site.new(which) + text[site.end : item.end]
    return f"{item.block} {{\n{head}{body}\n}}" if item.block else head + body


def copied_proof(proof, crate, function, copy, names):
    """A file of a function's proof, as its copy's, with the names of goals, places and steps that are others in the copy."""
    old, new = (".".join(name.split("::")[1:]) for name in (function, copy))
    proof = re.sub(rf"(?<=\bRattle\.{crate}\.proofs\.){re.escape(old)}(?=[.\s])", new, proof)
    if not names:
        return proof
    either = "|".join(re.escape(name) for name in sorted(names, key=len, reverse=True))
    return re.sub(rf"(?<![\w'-])({either})(?:(?![\w'-])|(?=-clause-))", lambda found: names[found[1]], proof)


def changed(text, chosen):
    """The text of a file with each (site, index of its change) of it made."""
    needed = []
    for site, which in sorted(chosen, key=lambda pair: -pair[0].start):
        text = text[: site.start] + site.new(which) + text[site.end :]
        needed += site.needed(which)
    return text + "".join(item + "\n" for item in needed)
