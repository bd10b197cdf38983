"""Whether the tables 'What must be believed' hold every file of specs/ that the statements cited beside them use."""
import functools
import re

import closure
from repository import CLAIMS, EXAMINER, cells_of, sections_of

SECTION = "What must be believed"
CITED = re.compile(r"crates/(\w+)/specs/(\w+)\.antt((?:,\s+`[^`]+`)+)")
SAID_OF = re.compile(r"`([^`]+)` of crates/(\w+)/specs/(\w+)\.antt")
ROW = re.compile(r"(?m)^\| (crates/\S+) \|.*$")


def statements(text):
    """The statements that a text cites, as crate, module and name."""
    out = {(crate, module, name) for crate, module, names in CITED.findall(text) for name in re.findall(r"`([^`]+)`", names)}
    return out | {(crate, module, name) for name, crate, module in SAID_OF.findall(text)}


def set_aside(prose):
    """The files that the words of the section name: whole paths, folders, and bare names before or behind a folder."""
    out, folder, bare = set(), None, []
    for there, name in re.findall(r"(crates/\w+/specs/)?(\w+\.antt)?", prose):
        if there and name:
            folder, bare = there, []
            out.add(there + name)
        elif there:
            folder = there
            out |= {there + one for one in bare} if bare else {there}
            bare = []
        elif name:
            bare.append(name)
            out |= {folder + name} if folder else set()
    return out


@functools.cache
def used_by(text):
    """The files that the statements of a text use."""
    roots = {closure.specs().found(*statement) for statement in statements(text)} - {None}
    return {closure.file_of(place) for place in closure.specs().used(roots)}


def faults(repository):
    """CLAIMS by its sections 1, 2 and 3 together; the page for the examiner by each of its questions, beside the column `For`."""
    out = []
    for document in (CLAIMS, EXAMINER):
        sections = sections_of(repository.text(document))
        believed = "\n".join(text for title, text in sections if title == SECTION)
        rows = {ROW.match(line)[1]: cells_of(line) for line in believed.split("\n") if ROW.match(line)}
        aside = set_aside(re.sub(r"(?m)^\|.*$", "", believed))
        if not rows:
            out.append(f"{document}: no table under '{SECTION}'")
        for title, text in sections:
            question = re.match(r"([123])\b", title)
            needed = used_by(text) if question else set()
            if question and not needed:
                out.append(f"{document}: no statement under '{title}'")
            for file in sorted(needed):
                if file not in rows and file not in aside and file.rsplit("/", 1)[0] + "/" not in aside:
                    out.append(f"{document}: {file}, which a statement of '{title}' uses, is not under '{SECTION}'")
                elif file in rows and document == EXAMINER and question[1] not in rows[file][2].split(", "):
                    out.append(f"{document}: {file} is used by a statement of question {question[1]}, and its row says {rows[file][2]}")
    return out
