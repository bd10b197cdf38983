#!/usr/bin/env python3
"""Lays two trees of this repository beside each other, for docs/DESIGN-PASS.md: tools/design_changes.py OLD NEW.

Prints what differs, as lines of old (-) and of new (+): the functions of src/ (signature and clauses) and the ghost members of impls, traits and
structs, public types and constants, the definitions and statements of specs/, and those of proofs/ that README.md or a page of docs/ names
(by bare name, so that one of another crate may stand there too). All are read by their layout (rt fmt's, and specs/ as they stand here), with
comments and white space taken out. A function that was free and is a method stands under the name of its type."""
import pathlib
import re
import sys

FUNCTION = re.compile(r'^(?P<indent> *)(?P<pub>pub )?(?:const )?(?:unsafe )?(?:extern "C" )?fn (?P<name>\w+)')
BLOCK = re.compile(r"^(?:unsafe )?impl(?:<.*?>)? (?P<what>.*?) \{$|^(?:pub )?trait (?P<trait>\w+).*\{$")
GHOST = re.compile(r"^    ghost (?P<name>\w+)(?: = |: )")
TYPE = re.compile(r"^pub (?:struct|enum|trait|const) (?!fn)(?P<name>\w+)|^(?:struct|enum) (?P<own>\w+)")
DEFINITION = re.compile(r"^(?:(?:abbrev|unfoldable|opaque|instance) )?(?:pub )?(?:(?:record|data) )?(?:pub )?(?P<name>[^\s(:{]+)")


def one_line(lines):
    """The lines as one, whatever their layout."""
    text = re.sub(r"\s+", " ", " ".join(lines)).strip()
    return re.sub(r"([(\[]) | ([)\]])|,( [)\]])", lambda it: it[1] or it[2] or it[3].strip(), text)


def functions(lines):
    """Each function's name and its head: its signature and its clauses; and each ghost member of an impl, a trait or a struct."""
    owner, out, i = "", [], 0
    while i < len(lines):
        line = lines[i]
        if found := BLOCK.match(line):
            owner = found["what"] or found["trait"]
        elif found := re.match(r"^(?:pub )?struct (\w+).* \{$", line):
            owner = found[1]
        elif line == "}":
            owner = ""
        elif found := GHOST.match(line):
            first = i
            while not lines[i].endswith((";", "},")):
                i += 1
            out.append((found["name"], f"[{owner}] {one_line(lines[first:i + 1])}"))
        elif found := FUNCTION.match(line):
            indent, head = found["indent"], []
            while True:
                at = lines[i]
                if at == indent + "{":
                    break
                head.append(at)
                if at.endswith(";") or at.endswith(" {") and not re.match(r"\s*(requires|ensures)", at) and at.startswith((indent + ")", indent + "fn", indent + "pub", indent + "const")):
                    head[-1] = re.sub(r" \{$", "", at)
                    break
                if at.endswith("}") and at.startswith((indent + "fn", indent + "pub fn")) and "{ " in at:
                    break
                i += 1
            name = (re.sub(r"<.*?>", "", owner) if " for " not in owner else owner) + "::" + found["name"] if owner else found["name"]
            mark = "" if found["pub"] or " for " in owner else "(private) "
            out.append((found["name"], f"{mark}{f'[{name}] ' if owner else ''}{one_line(head)}"))
        i += 1
    return out


def types(lines):
    """Each public type and constant, with its attributes; of a trait its methods too."""
    out, i = [], 0
    while i < len(lines):
        found = TYPE.match(lines[i])
        if found and found["name"]:
            first = i
            while first and lines[first - 1].startswith("#["):
                first -= 1
            last = i
            if not lines[i].endswith(";"):
                while not (lines[last].startswith("}") or lines[last].endswith("];")) and not lines[i].endswith("}"):
                    last += 1
            out.append((found["name"], one_line(it for it in lines[first:last + 1] if not it.startswith("#[tactic"))))
            i = last
        i += 1
    return out


def definitions(text):
    """Each definition or statement of a file: the lines that begin at the margin with one name, each with those behind it that do not."""
    out, name, block = [], None, []

    def closed():
        if name and block:
            equations = []
            for it in block:
                if it[0] == " ":
                    equations[-1].append(it)
                else:
                    equations.append([it])
            out.append((name, " ⏎ ".join(one_line(it) for it in equations)))

    for line in text.split("\n"):
        line = re.sub(r"(^|\s)--( .*|-*)$", "", line).rstrip()
        if not line:
            continue
        if line[0] != " ":
            found = DEFINITION.match(line)
            word = found["name"] if found else None
            if line.startswith("unfolding "):
                continue
            if line.startswith(("use ", "pub use ", "mod ", "pub mod ")):
                closed()
                name, block = None, []
                continue
            if line.startswith("module "):
                # (what stands in it is one block with its parameters)
                closed()
                name, block = f"module {len(out)}", [line]
                continue
            if word == name and not re.match(r"^(abbrev|unfoldable|opaque|instance|pub|record|data) ", line):
                block.append(line)
                continue
            closed()
            name, block = word, [line]
        elif name:
            block.append(line)
    closed()
    return out


def statements(text, names):
    """Of a file of proofs, the type of each lemma that a page names: `name : type`, up to the next line at its margin."""
    out, lines = [], [re.sub(r"(^|\s)--( .*|-*)$", "", it).rstrip() for it in text.split("\n")]
    for i, line in enumerate(lines):
        found = re.match(r"^( *)(?:pub )?([^\s(:{]+) : ", line)
        if found and found[2] in names:
            rest = []
            for it in lines[i + 1:]:
                if it and len(it) - len(it.lstrip()) <= len(found[1]):
                    break
                rest.append(it)
            out.append((found[2], one_line([line, *rest])))
    return out


def named_in(tree):
    pages = [tree / "README.md", *sorted((tree / "docs").glob("*.md"))]
    pages = [it for it in pages if it.name not in ("DESIGN-PASS.md", "PORT.md", "PORT-OTHER.md", "MUST-FAIL.md")]
    return {it for page in pages for it in re.findall(r"`([^`\s]+)`", page.read_text())}


def read(tree, part, names):
    """By crate (or crate and file), what the tree has of a part."""
    found = {}
    root = tree / "crates"
    if part in ("functions", "types"):
        for file in sorted(root.glob("*/src/**/*.rt")):
            lines = [re.sub(r"\s*//.*$", "", it) if it.strip().startswith("//") else it.rstrip() for it in file.read_text().split("\n")]
            found.setdefault(file.relative_to(root).parts[0], []).extend((functions if part == "functions" else types)(lines))
        return found
    folder = "specs" if part == "definitions" else "proofs"
    for file in sorted(root.glob(f"*/{folder}/*.antt")):
        place = f"{file.relative_to(root).parts[0]}/{file.stem}"
        text = file.read_text()
        found[place] = definitions(text) if part == "definitions" else statements(text, names)
    return found


def differences(old, new):
    """By place, lines of what only one of the two has, by name, the old before the new."""
    for place in sorted({*old, *new}):
        was, now = old.get(place, []), new.get(place, [])
        lines = [(name, 0, f"- {text}") for name, text in was if (name, text) not in now] + [(name, 1, f"+ {text}") for name, text in now if (name, text) not in was]
        if lines:
            yield place, [it[2] for it in sorted(lines)]


def main(old, new):
    old, new = pathlib.Path(old), pathlib.Path(new)
    names = named_in(old) | named_in(new)
    titles = {
        "functions": "### Functions", "types": "### Public types and constants", "definitions": "### Definitions and statements of specs/",
        "statements": "### Statements of proofs/ that README.md or docs/ name",
    }
    for part, title in titles.items():
        print(f"{title}\n")
        found = list(differences(read(old, part, names), read(new, part, names)))
        if part == "functions":
            for crate, lines in found:
                print(f"**{crate}**\n", "```diff", *lines, "```\n", sep="\n")
            continue
        print("```diff")
        for place, lines in found:
            print(*(f"{it[:2]}{place}: {it[2:]}" for it in lines), sep="\n")
        print("```\n" if found else "none\n```\n")


if len(sys.argv) != 3:
    sys.exit(__doc__)
main(*sys.argv[1:])
