#!/usr/bin/env python3
"""tried.py FITS FUZZ: prints the tables of docs/TRIED.md out of what `fits --disturbed --sum` and `fuzz --sum` printed.

FITS and FUZZ are files that hold those outputs. It fails (exit status 1) where one of them holds something that was not reached.
"""
import re
import sys

REPLIES = ["prints nothing", "bad 1", "bad 2", "bad 3", "bad, at an answer", "ask", "end", "no, to a start", "no, as an outcome"]
REPLIES += ["no 15", "no 16", "no 17"]
LEAST = 12


def read(path):
    """The groups with their counts, and the last line's words."""
    groups, last, group = {}, "", None
    with open(path, encoding="utf-8") as file:
        for line in file:
            line = line.rstrip("\n")
            if line.endswith(": NOT REACHED"):
                sys.exit(f"{path}: {line.strip()}")
            head = re.fullmatch(r"(.*): (\d+) (fits|inputs)", line)
            count = re.fullmatch(r" *(\d+) (.*)", line)
            if head:
                group = groups.setdefault(head[1], {"": int(head[2])})
            elif line.startswith(" ") and count:
                group[count[2]] = int(count[1])
            elif " equal: " in line:
                last = line
    return groups, last


def row(cells):
    print("| " + " | ".join(f"{cell:,}" if isinstance(cell, int) else cell for cell in cells) + " |")


def fits(path):
    groups, last = read(path)
    print(last + "\n")
    names = [name for name in groups["simplex"] if name.startswith("disturbed: ")]
    row(["", *groups])
    print("|---" * (len(groups) + 1) + "|")
    row(["fits", *(counts[""] for counts in groups.values())])
    for name in names:
        row([name.removeprefix("disturbed: "), *(counts[name] for counts in groups.values())])
    print("\nthings counted:", ", ".join(f"{len(counts) - 1} of {group}" for group, counts in groups.items()), "\n")
    print("| Job | Fits | Reached |\n|---|---|---|")
    every = sorted((count, group, name) for group, counts in groups.items() for name, count in counts.items() if name)
    for count, group, name in every[:LEAST]:
        row([group, count, name])


def fuzz(path):
    groups, last = read(path)
    print("\n" + last + "\n")
    row(["Kind", "Inputs", "in parts", *REPLIES])
    print("|---" * (len(REPLIES) + 3) + "|")
    for kind, counts in groups.items():
        row([kind, counts[""], counts.get("given in parts", "-"), *(counts.get(name, "-") for name in REPLIES)])


def main():
    if len(sys.argv) != 3:
        sys.exit(__doc__)
    fits(sys.argv[1])
    fuzz(sys.argv[2])


main()
