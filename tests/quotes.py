#!/usr/bin/env python3
"""quotes.py FOLDER: whether words in quotation marks are those of the papers. Run it anywhere; FOLDER is the reader's.

FOLDER holds the requirement (01-scope.md, 02-change-requests.md), how it is read (READINGS*.md) and the Rust's files (docs/src/).
Every passage in double quotation marks in comments of crates/*/specs/*.antt and crates/*/src/*.rt, in docs/CLAIMS.md and in
docs/FOR-THE-EXAMINER.md must stand in one of them, or in the user's three demands as docs/CLAIMS.md has them, to the letter but for
line ends; `..` stands for words left out, and of the demands commas, semicolons and full stops may differ. A passage with another
source (SOURCES) beside it is not looked up, nor is one in a section that says whose "The words quoted" are.
It fails (exit status 1) where a passage stands nowhere, or a quotation mark is not closed.
"""
import os
import pathlib
import re
import sys

DOCUMENTS = ("docs/CLAIMS.md", "docs/FOR-THE-EXAMINER.md")
DEMANDS = "docs/CLAIMS.md"
SOURCES = re.compile(r"IEEE 754|Nocedal and Wright|Gao and Han")
# How far before a passage its source may stand, in characters.
NEAR = 120


def plain(text):
    return re.sub(r"\s+", " ", text).strip()


def papers_of(folder):
    """Each paper as one line, a Rust file without the marks of its comments."""
    paths = [*folder.glob("0[12]-*.md"), *folder.glob("READINGS*.md"), *folder.glob("docs/src/**/*.rs")]
    return {str(path.relative_to(folder)): plain(re.sub(r"(?m)^\s*//[/!]?", " ", path.read_text())) for path in sorted(paths)}


def demands_of(text):
    """The user's three demands: what stands in the column `Sentence` of the tables, one after another."""
    out, taken = [], False
    for line in text.split("\n"):
        cell = line.split("|")[1].strip() if line.startswith("|") else ""
        taken = cell == "Sentence" or (taken and bool(cell))
        out += [cell] if taken and cell != "Sentence" and not cell.startswith(("---", "(")) else []
    return " ".join(out)


def blocks_of(path):
    """The comments of a file, or the paragraphs and rows of a document, each with the number of its first line."""
    mark = {".antt": r" *--", ".rt": r" *//"}.get(path.suffix)
    held, fenced = [], False
    for number, line in enumerate([*path.read_text().split("\n"), ""], 1):
        fenced ^= line.startswith("```")
        inner = re.match(mark + " ?(.*)", line) if mark else re.match(r"(?!```)(.+)", "" if fenced else line)
        if held and (not inner or line.startswith("|")):
            yield number - len(held), "\n".join(held)
            held = []
        if inner:
            held.append(inner[1])


def stands(passage, text):
    """Whether a passage stands in a text by itself, or its parts do, one behind another, where words are left out."""

    def behind(at, part):
        before, behind_it = (r"(?<!\w)" if part[0].isalnum() else ""), (r"(?!\w)" if part[-1].isalnum() else "")
        found = re.compile(before + re.escape(part) + behind_it).search(text, at)
        return found.end() if found else None

    if not passage or behind(0, passage):
        return bool(passage)
    at = 0
    for part in filter(None, (part.strip() for part in passage.split(".."))):
        at = behind(at, part)
        if at is None:
            return False
    return ".." in passage


def words(text):
    return plain(re.sub(r"(?<!\.)[,;.](?!\.)", " ", text))


def faults_of(path, papers, demands):
    """What is wrong in a file, and how many passages it has."""
    out, seen, told = [], 0, False
    for number, block in blocks_of(path):
        # A section of a document that says whose the words are.
        told = path.suffix == ".md" and not block.startswith("#") and (told or bool(re.search(r"The words quoted\s+are those of", block)))
        if told:
            continue
        if block.count('"') % 2:
            out.append(f"{path}:{number}: a quotation mark is not closed: {plain(block)[:120]}")
            continue
        for found in re.finditer(r'"([^"]*)"', block):
            seen += 1
            passage, before = plain(found[1]), plain(block[: found.start()])
            if not SOURCES.search(before[-NEAR:]) and not any(stands(passage, text) for text in papers.values()):
                if not stands(words(passage), words(demands)):
                    out.append(f'{path}:{number + block[: found.start()].count(chr(10))}: stands nowhere: "{passage}"')
    return out, seen


def main():
    if len(sys.argv) != 2:
        sys.exit(__doc__)
    papers = papers_of(pathlib.Path(sys.argv[1]).resolve())
    os.chdir(pathlib.Path(__file__).resolve().parent.parent)
    missing = [name for name in ("01-", "02-", "READINGS", "docs/src/") if not any(paper.startswith(name) for paper in papers)]
    if missing:
        sys.exit(f"{sys.argv[1]} has no {', '.join(missing)}")
    demands, seen, faults = demands_of(pathlib.Path(DEMANDS).read_text()), 0, []
    crates = pathlib.Path("crates")
    for path in [*sorted(crates.glob("*/specs/*.antt")), *sorted(crates.glob("*/src/**/*.rt")), *map(pathlib.Path, DOCUMENTS)]:
        found, passages = faults_of(path, papers, demands)
        faults += found
        seen += passages
    for fault in faults:
        print(fault, file=sys.stderr)
    print(f"{seen} passages in {len(papers)} papers and the demands, {len(faults)} faults")
    return 1 if faults or not seen else 0


if __name__ == "__main__":
    sys.exit(main())
