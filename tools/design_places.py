#!/usr/bin/env python3
"""Counts the places of docs/DESIGN-PASS.md in the crates' src/, point by point: tools/design_places.py [TREE] [--list POINT].

Each point has one or more patterns, matched line by line, or over a function's whole head where a pattern says `head`. A place is a match.
What a pattern finds is a place to look at; the page says which of them were changed, and why the others stay."""
import pathlib
import re
import sys

POINTS = {
    "1 flag": (r"^\s+(pub )?\w+: bool,$", "a field that is a flag, beside the values that it speaks of"),
    "1 mark": (r"^(pub )?const [A-Z_0-9]+: (u8|u64|usize) = ", "a number that stands for a kind, a phase, a form or for none"),
    "1 none": (r"(-> (protocol::)?Refusal\b|\.number != 0|return (99|17|16|NO_SPELLING);|^ {4}(99|17|16)$)", "a number or a value that says `none`"),
    "3 loop": (r"\bwhile\b", "a loop by `while`"),
    "4 form": (r"fn (to_\w+|from_\w+|same\w*|letter|flag)\b", "an equality or a conversion by hand"),
    "5 fact": (r"requires .*(≤ 16|< 16|≤ 40000000001) \}", "a fact in a `requires` that others repeat"),
    "5 many": (r"head", "a function of eight parameters or more"),
    "6 beside": (r"head", "an array or a buffer with a count or a place beside it"),
    "7 switch": (r"if (\w+\.)*(phase|due|job|shape|form|what|op|mark|due) (==|!=) ", "a test of which step, kind or form it is"),
}


def heads(text):
    """The heads of the functions in a source: from `fn` to the line of `{`."""
    for found in re.finditer(r"^ *(pub )?(extern \"C\" )?(unsafe )?fn .*?^\s*\{|^ *(pub )?(extern \"C\" )?fn [^\n]*\{$", text, re.M | re.S):
        yield text[: found.start()].count("\n") + 1, found.group(0)


def parameters(head):
    inner = head[head.index("(") + 1:]
    depth, out, word = 0, [], ""
    for c in inner:
        if c in "([<{":
            depth += 1
        elif c in ")]>}" and not word.endswith("-"):
            if depth == 0:
                break
            depth -= 1
        if c == "," and depth == 0:
            out.append(word.strip())
            word = ""
        else:
            word += c
    return [it for it in [*out, word.strip()] if it]


def places(tree):
    found = {point: [] for point in POINTS}
    for file in sorted(pathlib.Path(tree).glob("crates/*/src/**/*.rt")):
        name = file.relative_to(pathlib.Path(tree) / "crates")
        text = file.read_text()
        for number, line in enumerate(text.split("\n"), 1):
            if line.strip().startswith("//"):
                continue
            for point, (pattern, _) in POINTS.items():
                if pattern != "head" and re.search(pattern, line):
                    found[point].append(f"{name}:{number}: {line.strip()}")
        for number, head in heads(text):
            given = parameters(head)
            line = f"{name}:{number}: {head.split(chr(10))[0].strip()}"
            if len(given) >= 8:
                found["5 many"].append(line)
            array = any(re.search(r": (&mut |&)?\[", it) for it in given)
            count = any(re.match(r"(n|at|k|count|from|size): (usize|u64)$", it) for it in given)
            if array and count:
                found["6 beside"].append(line)
    return found


def main(words):
    listed = words[words.index("--list") + 1] if "--list" in words else None
    trees = [it for it in words if it != "--list" and it != listed]
    found = places(trees[0] if trees else ".")
    if listed:
        for point, lines in found.items():
            if point.startswith(listed):
                print(*lines, sep="\n")
        return
    for point, (_, what) in POINTS.items():
        crates = {it.split("/")[0] for it in found[point]}
        print(f"{point:9} {len(found[point]):4} in {len(crates):2} crates: {what}")


main(sys.argv[1:])
