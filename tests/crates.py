#!/usr/bin/env python3
"""crates.py [--write | --draw | --self-test]: whether crates.txt is true of crates/, and docs/crates.svg of crates.txt. Run it anywhere.

crates.txt lists for a crate what it names in src/, specs/ and proofs/, and what declares a type that it reaches through a field.
Callees stand before callers, and a crate in the room that its prefix names. Without an argument it fails (exit status 1) where
that is not so, or where the drawing is not the one of crates.txt. --write writes crates.txt anew, with the rooms that it has, and
--draw the drawing. --self-test breaks a copy of crates.txt in each way, and fails where the fault is not seen.
"""
import os
import pathlib
import re
import sys

sys.dont_write_bytecode = True
sys.path.insert(0, str(pathlib.Path(__file__).resolve().parent / "crates"))
import drawing  # noqa: E402
import listing  # noqa: E402
import sources  # noqa: E402

SVG = pathlib.Path("docs/crates.svg")
# What is done to crates.txt, as a pattern and what takes its place, and words of the fault that is due.
WAYS = [
    (r"^vector: float$", "vector:", "vector does not list float"),
    (r"^float:$", "float: vector", "float lists vector, and neither names it"),
    (r"^objective: float vector", "objective: vector float", "is not as tests/crates.py --write writes it"),
    (r"^vector: .*\n", "", "vector is not listed"),
    (r"^(float:)\n", r"\1\nnone:\n", "none is no crate"),
    (r"^(float:)\n", r"\1\nfloat:\n", "float stands twice"),
    (r"^(float:)\n(vector: .*)\n", r"\2\n\1\n", "vector stands before float"),
    (r"^(vector: .*)\n(# protocol: .*)\n", r"\2\n\1\n", "vector does not belong into the room protocol"),
    (r"^(# values: ).*$", r"\1other words", "is not the drawing of crates.txt"),
    (r"^float:$", "float: os", "float lists os, and neither names it"),
    (r"^(vector): float$", r"\1 staticlib: vector", "vector does not list float"),
]


def faults_of(text, leans):
    """What is wrong with a text of crates.txt, and with the drawing beside it."""
    rooms = listing.rooms_of(text)
    faults = listing.faults(text, rooms, leans, sources.KIT)
    if not faults and text != listing.text_of(listing.made(rooms, leans, sources.KIT)):
        faults.append(f"{listing.FILE} is not as tests/crates.py --write writes it")
    if not faults and (not SVG.exists() or SVG.read_text() != drawing.drawn(rooms)):
        faults.append(f"{SVG} is not the drawing of {listing.FILE}: tests/crates.py --draw")
    return faults


def unseen(text, leans):
    """The ways to break crates.txt that are not seen."""
    out = []
    for pattern, to, due in WAYS:
        broken, count = re.subn(pattern, to, text, count=1, flags=re.M)
        if not count or not any(due in fault for fault in faults_of(broken, leans)):
            out.append(f"broken, and not seen: {due}")
    return out


def main():
    os.chdir(pathlib.Path(__file__).resolve().parent.parent)
    word = sys.argv[1] if len(sys.argv) == 2 else ""
    if len(sys.argv) > 2 or word not in ("", "--write", "--draw", "--self-test"):
        sys.exit(__doc__)
    text = listing.FILE.read_text()
    read = sources.Sources()
    leans = {crate: read.leans_on(crate) for crate in read.crates}
    if word == "--write":
        listing.FILE.write_text(listing.text_of(listing.made(listing.rooms_of(text), leans, sources.KIT)))
    elif word == "--draw":
        SVG.write_text(drawing.drawn(listing.rooms_of(text)))
    else:
        faults = unseen(text, leans) if word else faults_of(text, leans)
        for fault in faults:
            print(fault, file=sys.stderr)
        counted = f"{len(WAYS)} ways to break it" if word else f"{len(leans)} crates, {sum(map(len, leans.values()))} that they lean on"
        print(f"{counted}, {len(faults)} {'not seen' if word else 'faults'}")
        return 1 if faults else 0
    return 0


sys.exit(main())
