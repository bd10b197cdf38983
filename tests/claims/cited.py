"""Files, theorems, statements and edits that the two documents of claims cite, and the lines of the files."""
import collections
import pathlib
import re

from repository import CLAIMS, EXAMINER, cells_of

FILE = re.compile(r"(crates/\S+/|)(\w+\.antt)((?:, `[^`]+`)*)")
COUNTED = re.compile(r"\| (crates/\S+) \| (\d+) \|(?: ([123, ]+) \|)?")
QUESTION = re.compile(r"\| question (\d) \| (\d+) \|")


def public(path):
    """The public names that a file of specs/ or proofs/ declares."""
    return set(re.findall(r"^ *(?:unfoldable |abbrev )*pub (?:record |data )?(\S+)", path.read_text(), re.M))


def of_cell(cell, folder):
    """Faults of the files, names and edits of a cell, and the folder that it named last."""
    faults = []
    for part in FILE.finditer(cell):
        folder = part[1] or folder
        path = pathlib.Path(folder, part[2])
        if not folder or not path.exists():
            faults.append(f"{path} does not exist")
            continue
        names = re.findall(r"`([^`]+)`", part[3])
        faults += [f"{path} has no public `{name}`" for name in names if name not in public(path)]
    for crate, label in re.findall(r"`(\w+)/(\w+)`", cell):
        if not pathlib.Path(f"crates/{crate}/must-fail/{label}.edit").exists():
            faults.append(f"there is no edit {crate}/{label}")
    return faults, folder


def due_of(line, sums):
    """What a row counts, the count that it has and the one that is due; the lines of a file are added to those of its questions."""
    file, total = COUNTED.match(line), QUESTION.match(line)
    if file and pathlib.Path(file[1]).exists():
        lines = len(pathlib.Path(file[1]).read_text().splitlines())
        for question in (file[3] or "").split(", "):
            sums[question.strip()] += lines
        return f"{file[1]} has", int(file[2]), lines
    return (f"the files of question {total[1]} have", int(total[2]), sums[total[1]]) if total else ("", 0, 0)


def counted(lines):
    """The lines of a document with the counts that are due."""
    sums = collections.Counter()
    for line in lines:
        _, count, due = due_of(line, sums)
        yield line.replace(f"| {count} |", f"| {due} |", 1) if count != due else line


def faults(repository):
    """Faults of the tables, and of line counts anywhere in a document's prose."""
    out = []
    for document in repository.documents():
        folder, sums = "", collections.Counter()
        for number, line in enumerate(repository.lines(document), 1):
            found = []
            if line.startswith("|"):
                for cell in cells_of(line) if document in (CLAIMS, EXAMINER) else []:
                    wrong, folder = of_cell(cell, folder)
                    found += wrong
                what, count, due = due_of(line, sums)
                found += [f"{what} {due} lines, not {count}"] if count != due else []
            for path, count in re.findall(r"(crates/[\w/]+\.\w+) (?:has |\()([\d,]+) lines", line):
                lines = len(pathlib.Path(path).read_text().splitlines()) if pathlib.Path(path).exists() else None
                found += [f"{path} has {lines} lines, not {count}"] if str(lines) != count.replace(",", "") else []
            out += [f"{document}:{number}: {what}" for what in found]
    return out
