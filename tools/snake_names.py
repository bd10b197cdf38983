#!/usr/bin/env python3
"""Spells the repository's own definitions and lemmas as today's Rattle does: words in snake case, types and modules in camel case.

usage: python3 tools/snake_names.py [--check] [--anyway] [--labels FOLDER] [FOLDER]

Reads each name that an .antt file below FOLDER/crates declares with a type, at any depth, or brings in by 'as', and respells it: a
hump or a dash becomes an underscore. A name that begins with a capital and has no dash is a type's and stays, as modules and files do.
A lemma that would then have its function's name gets `_lem`. What turns: whole words in .antt, .rt and .edit files, and in comments and
pages the words of code spans, those with a hump and, beside code, those that the code has.
What stays: strings, functions of src/ (in snake case before), words of QUOTED, what an .antt file has from a library of the kit, and what
the prover names, that is the goals that Answers.antt and Invariants.antt answer, and labels behind a dot in them. Those are read off
the output of `rt names`, where --labels gives its folder, and else taken to be what these files alone declare.
A name whose new spelling stands already in a file that has the old one would fall together with it: it gets the spelling of CLASHES,
and without one the script stops and names it; --anyway goes on, for a tree that is only read beside this one. A name that an edit or
a page alone still has stays, as do names that the kit's port.py turned elsewhere. --check writes nothing and prints the table.
"""
import collections
import json
import os
import re
import sys

NAME = r'[^\s(){}.;,@"«»]+'
WORD = re.compile(NAME)
HEAD = r"(?:(?:abbrev|unfoldable|pub|private|data|record|let|where|in|do|field|mutual|infix[lr]? \d+)\s+)*"
DECLARED = re.compile(rf"(?m)^ *{HEAD}({NAME})(?: \{{[^{{}}\n]*\}})*(?: \([^()\n]*\))* :(?= |$)")
NAMED = re.compile(rf"[{{;(] *({NAME}) :(?= )")
TWO = re.compile(rf"(?m)^ *{HEAD}((?:{NAME} )+{NAME}) :(?= )")
ALIAS = re.compile(rf"(?<=\S) as ({NAME})")
MADE = re.compile(r"proofs/.+/(?:Answers|Invariants)\.antt$")
# What a goal of the prover begins with.
GOAL = re.compile(r"(?:returns|invariant|decreases)(?:-|$)")
QUIET = re.compile(r'"(?:[^"\\\n]|\\.)*"')
SPAN = re.compile(r"(`+)(?:[^\n]|\n(?!\s*\n))*?\1")
FENCE = re.compile(r"^( *)(`{3,})[^\n`]*\n.*?^\1\2 *$", re.S | re.M)
# Words of the papers that prose keeps outside code spans.
QUOTED = {"totalOrder"}
# Names whose plain respelling is taken where they stand.
CLASHES = {"is-nan": "is_nan_lem", "simplexAnswers": "engine_answers"}


def snake(name):
    """The name as a word in snake case; a type's name as it is."""
    if name[:1].isupper() and "-" not in name:
        return name
    words = re.sub(r"(?<=[a-z0-9])[A-Z](?=[a-z0-9]|$)|(?<=[a-z0-9])[A-Z](?![A-Z])", lambda m: "_" + m[0].lower(), name)
    return words.replace("-", "_")


def files(top):
    for folder, dirs, names in os.walk(os.path.join(top, "crates")):
        dirs[:] = sorted(d for d in dirs if d != "out")
        for n in sorted(names):
            if n.endswith((".antt", ".rt", ".edit")):
                yield os.path.join(folder, n)


def pages(top):
    for folder, dirs, names in os.walk(top):
        dirs[:] = sorted(d for d in dirs if d not in (".git", "out", "crates", "target"))
        for n in sorted(names):
            if n.endswith(".md"):
                yield os.path.join(folder, n)


def read(path):
    with open(path, encoding="utf-8") as f:
        return f.read()


def bare(text):
    """The text without comments and strings."""
    return re.sub(r"(?m)(?:^|(?<=\s))--[^\n]*|//[^\n]*", " ", QUIET.sub(" ", text))


def labels_of(folder):
    found = set()
    for at, dirs, names in os.walk(folder):
        for n in names:
            if n.endswith(".json"):
                found.update(re.findall(r"[\w-]+", read(os.path.join(at, n))))
    return {w for w in found if "-" in w}


def declared(text):
    code = bare(text)
    found = set(DECLARED.findall(code))
    found.update(NAMED.findall(code))
    found.update(ALIAS.findall(code))
    for line in TWO.findall(code):
        found.update(line.split())
    return found


def table_of(texts, labels):
    own, made = set(), set(labels)
    for path, text in texts.items():
        if path.endswith(".antt") and not MADE.search(path):
            own.update(declared(text))
    for path, text in texts.items():
        if MADE.search(path):
            here = declared(text)
            goals = {w for w in here if GOAL.match(w) or w in labels or (not labels and w not in own and re.search(rf"(?m)^(?:pub )?{re.escape(w)} ", text))}
            made |= goals
            own |= here - goals
    odd = {w: snake(w) for w in own if snake(w) != w and re.fullmatch(r"[\w'≢→≡≤-]+", w) and not w.startswith("-")}
    many = collections.Counter(odd.values())
    taken = {w for w, n in many.items() if n > 1} | own
    # A lemma that would have its function's name gets `_lem`, as the kit's style says.
    return {w: new + "_lem" if "-" in w and new in taken else new for w, new in odd.items()}, made, own


def foreign(text, crates):
    """The names that a file has from libraries of the kit: they stay."""
    found = set()
    for path, items in re.findall(r"(?m)^(?:(?:unfoldable|pub) )*use ([^\s{]+?)\.?\{([^}\n]*)\}", text):
        steps = path.split(".")
        if not (steps[0] == "Rattle" and len(steps) > 1 and steps[1] in crates or steps[0] in ("package", "crate")):
            found.update(WORD.findall(items))
    return found


class Turner:
    def __init__(self, table, made, own):
        self.table, self.made, self.own = table, made, own
        self.here, self.theirs, self.crates = set(), set(), set()

    def words(self, text, proof):
        def one(m):
            w = m[0]
            if w not in self.table or w in self.theirs:
                return w
            if proof and w in self.made and (w not in self.own or text[:m.start()].endswith(".")):
                return w
            return self.table[w]

        return WORD.sub(one, text)

    def code(self, text, proof=False):
        out, at = [], 0
        for m in QUIET.finditer(text):
            out += [self.words(text[at:m.start()], proof), m[0]]
            at = m.end()
        return "".join(out) + self.words(text[at:], proof)

    def prose(self, text):
        """Names in code spans, and words with a hump, whose old spelling can be nothing else."""
        def in_span(m):
            return re.sub(r"[\w'≢→≡≤-]+", lambda w: self.table.get(w[0], w[0]), m[0])

        text = SPAN.sub(in_span, text)
        return re.sub(r"[\w'-]+", lambda w: w[0] if w[0] in QUOTED or "`" in w[0] else self.table.get(w[0], w[0]) if w[0] in self.here or re.search(r"[a-z0-9][A-Z]", w[0]) and "-" not in w[0] else w[0], text)

    def antt(self, text, proof):
        """Code turns, comments turn as prose."""
        out = []
        for line in text.split("\n"):
            m = re.search(r"(?:^|(?<=\s))--(?=\s|$)", QUIET.sub(lambda q: "x" * len(q[0]), line))
            cut = m.start() if m else len(line)
            out.append(self.code(line[:cut], proof) + self.prose(line[cut:]))
        return "\n".join(out)

    def rt(self, text):
        out = []
        for line in text.split("\n"):
            m = re.search(r"//", QUIET.sub(lambda q: "x" * len(q[0]), line))
            cut = m.start() if m else len(line)
            code = "".join(p if i % 2 else re.sub(r"(?<![\w'-])[A-Za-z][\w'≢-]*", lambda w: self.table.get(w[0], w[0]), p) for i, p in enumerate(re.split(r'("(?:[^"\\]|\\.)*")', line[:cut])))
            out.append(code + self.prose(line[cut:]))
        return "\n".join(out)

    def edit(self, path, text):
        target, out = "", []
        for line in text.split("\n"):
            if line.startswith("file: "):
                target = line[6:].strip()
                at = os.path.join(os.path.dirname(os.path.dirname(path)), target)
                self.theirs = foreign(read(at), self.crates) if target.endswith(".antt") and os.path.exists(at) else set()
                out.append(line)
            elif line.startswith(("old: ", "new: ")):
                body = line[5:]
                proof = bool(MADE.search("/" + target))
                out.append(line[:5] + (self.rt(body) if target.endswith(".rt") else self.antt(body, proof)))
            else:
                out.append(self.prose(line))
        return "\n".join(out)

    def turn(self, path, text):
        self.here = set(WORD.findall(bare(text))) if path.endswith(".antt") else set()
        self.theirs = foreign(text, self.crates) if path.endswith(".antt") else set()
        if path.endswith(".antt"):
            return self.antt(text, bool(MADE.search(path)))
        if path.endswith(".rt"):
            return self.rt(text)
        if path.endswith(".edit"):
            return self.edit(path, text)
        return FENCE.sub(lambda m: self.prose(m[0]), self.prose(text))


def clashes(texts, table, made):
    """Old names whose new spelling stands already in a file that has the old one, or that two old names of a file share."""
    said = collections.defaultdict(list)
    for path, text in texts.items():
        if not path.endswith(".antt"):
            continue
        found = set(WORD.findall(re.sub(r"(?m)^use [^\n{]*", " ", bare(text))))
        here = [w for w in found if w in table and not (MADE.search(path) and w in made)]
        news = collections.Counter(table[w] for w in here)
        for w in here:
            if table[w] in found or news[table[w]] > 1:
                said[w].append(path)
    return said


def main(argv):
    check = "--check" in argv
    anyway = "--anyway" in argv
    argv = [a for a in argv if a not in ("--check", "--anyway")]
    labels = set()
    if "--labels" in argv:
        at = argv.index("--labels")
        labels = labels_of(argv[at + 1])
        del argv[at:at + 2]
    top = argv[0] if argv else "."
    texts = {p: read(p) for p in files(top)}
    table, made, own = table_of(texts, labels)
    table.update({w: CLASHES[w] for w in CLASHES if w in table})
    said = clashes(texts, table, made)
    for w in sorted(said):
        print(f"clash: {w} -> {table[w]}: {len(said[w])} files, {os.path.relpath(said[w][0], top)}")
    both = sorted(own & set(table) & made)
    print(f"{len(table)} names turn; {len(both)} are spelled like a label of the prover: {' '.join(both)}")
    if check:
        for w in sorted(table):
            print(w, table[w])
        return 1 if said else 0
    if said and not anyway:
        return 1
    turner = Turner(table, made, own)
    turner.crates = set(os.listdir(os.path.join(top, "crates")))
    for path in list(texts) + list(pages(top)):
        old = texts[path] if path in texts else read(path)
        new = turner.turn(path, old)
        if new != old:
            with open(path, "w", encoding="utf-8") as f:
                f.write(new)
    return 0


if __name__ == "__main__":
    raise SystemExit(main(sys.argv[1:]))
