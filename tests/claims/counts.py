"""Tables with a cell too many or too few, and counts of crates and edits that are stale."""
import re

from repository import DESIGN, tables_of

COUNT = re.compile(r"\b(\d[\d,]*) (must-fail edits|edits|crates)\b(?!/)")
# rt's line at the end of a run, and words for the edits that a command above them keeps.
RT_OK = re.compile(r"must-fail edits: (\d[\d,]*) refused")
KEPT = re.compile(r"\bthese \d[\d,]* edits\b")


def number(text):
    return int(text.replace(",", ""))


def shapes(repository):
    """Faults of rows that have another count of cells than their head, and of a file's lines in a table that is not of lines."""
    out = []
    for document in repository.documents():
        for first, table in tables_of(repository.lines(document)):
            for at, row in enumerate(table):
                if len(row) != len(table[0]):
                    out.append(f"{document}:{first + at}: {len(row)} cells, and its table's head has {len(table[0])}")
                if re.fullmatch(r"crates/\S+ \d+", " ".join(row[:2])) and table[0][1] != "Lines":
                    out.append(f"{document}:{first + at}: the lines of {row[0]}, in a table that is not of lines")
    return out


def in_words(repository):
    """Faults of 'N crates' and 'N edits': all of them, but behind `rt must-fail CRATE` those of that crate, and of 'these N edits'
    those that the command above it keeps."""
    out, edits = [], repository.edits()
    everything = {"crates": len(edits), "edits": sum(map(len, edits.values()))}
    for document in repository.documents():
        kept, fenced = set(), False
        for at, line in enumerate(repository.lines(document), 1):
            fenced ^= line.startswith("```")
            kept = (set() if line.startswith("```") and fenced else kept) | set(re.findall(r"! -name (\w+)\.edit", line))
            due = dict(everything)
            one = re.search(r"`rt must-fail (\w+)`", line)
            if one and one[1] in edits:
                due["edits"] = len(edits[one[1]])
            if KEPT.search(line) and kept:
                due["edits"] = len(kept)
            for count, what in [*COUNT.findall(line), *((count, "must-fail edits") for count in RT_OK.findall(line))]:
                if number(count) != due[what.split()[-1]]:
                    out.append(f"{document}:{at}: {count} {what}, and there are {due[what.split()[-1]]}")
    return out


def by_crate(repository):
    """Faults of the table of edits by crate in docs/DESIGN.md, and of those of crates: each crate that is to be there, with what it has."""
    out, edits, seen = [], repository.edits(), set()
    for first, table in tables_of(repository.lines(DESIGN)):
        names = [row[0] for row in table[2:]]
        if table[0] == ["Crate", "Holds"]:
            seen.add("crates")
            out += [f"{DESIGN}:{first}: the table of crates has no {crate}" for crate in edits if crate not in names]
        elif table[0][0] == "Crate" and "edits" in table[0]:
            seen.add("edits")
            out += edits_by_crate(edits, first, table)
    return out + [f"{DESIGN}: no table of {what} by crate" for what in ("crates", "edits") if what not in seen]


def edits_by_crate(edits, first, table):
    """Faults of the one table: a crate's edits, their seconds where the table has them, and the sums below."""
    out, sums, head = [], {"edits": 0, "all its edits": 0}, table[0]
    for at, row in enumerate(table[2:], first + 2):
        entry = dict(zip(head, row))
        if row[0] == "together":
            due = sums
        elif row[0] in edits:
            due = {"edits": len(edits[row[0]])}
            if "all its edits" in head:
                due["all its edits"] = number(entry["seconds"]) * number(entry["edits"])
            sums = {what: sums[what] + number(entry.get(what, "0")) for what in sums}
        else:
            continue
        stale = [what for what in due if what in entry and number(entry[what]) != due[what]]
        out += [f"{DESIGN}:{at}: {row[0]}: {what} {entry[what]}, due {due[what]}" for what in stale]
    names = [row[0] for row in table[2:]]
    return out + [f"{DESIGN}:{first}: the table of edits has no {crate}" for crate, own in edits.items() if own and crate not in names]


def faults(repository):
    return shapes(repository) + in_words(repository) + by_crate(repository)
