#!/usr/bin/env python3
"""must_fail.py LOG | --edits | --table | --self-test: the must-fail edits, and what `rt ci` or `rt must-fail` said of each.

Run it at the repository's root. LOG is a file with what either command printed. It fails (exit status 1) where an edit has no line
there, where a line is of no edit, and where an edit
- was not refused, or not tried, or is a BAD EDIT, which could not be applied, compiled or read (`rt ci` passes these);
- was refused by a limit of the prover alone, which gave no verdict then;
- was refused for its shape alone, so that nothing is shown of the contract: the proof names what the edit took away, and nothing
  else is wrong but that a goal has another name now, under which it has no answer. The first rt says itself. The second is
  looked up where the first thing that is not proved is a goal that the function does not have without the edit: `rt names` lists
  the goals of the function with the edit in it, and an answer of its proof must then be to none of them.
--edits needs no log: it fails where a text that an edit is to replace does not stand once in its file. --table prints the edits as
a table, which docs/MUST-FAIL.md holds; with a log and with --edits it also fails where that table is not the one in
docs/MUST-FAIL.md. --self-test gives it words for each of these ways, and fails where a fault is not seen, or where answers of a
proof are found from no line of src/.
"""
import functools
import json
import pathlib
import re
import shutil
import subprocess
import sys
import tempfile

sys.dont_write_bytecode = True
sys.path.insert(0, str(pathlib.Path(__file__).resolve().parent / "mutation"))
import items  # noqa: E402

TABLE = pathlib.Path("docs/MUST-FAIL.md")
PARTS = ("src", "specs", "proofs")
# What rt says of an edit, and of a file that it takes for none.
SAID = re.compile(r"rt: must-fail (\w+)/(\S+)\.edit: (.*)")
STRAY = re.compile(r"rt: (\S*must-fail/\S+): (BAD EDIT.*)")
REFUSED = "refused, as it must be"
# Where a refusal begins with a goal that nothing proves: its file, its line, and its name, of which rt may cut the end off.
OPEN = re.compile(r": note: (?:\./)?src/([\w/]+)\.rt:(\d+):\d+: it is not proved .*?\(`([^`\s]+)(`\)|`?$)")
ANSWER = re.compile(r"(?m)^(?:abbrev )?(?:pub )?(\S+) : goal\.")
# Words that rt has of an edit, and those of the fault that is due; none of a refusal for a fact.
WAYS = [
    (None, "it was not tried"),
    ("NOT TRIED: its check was killed, most likely for memory, so nothing is known of it: run this again", "NOT TRIED"),
    ("NOT REFUSED: the crate is still proved with this edit (one that means the same as before cannot be refused: remove it)", "NOT REFUSED"),
    ("BAD EDIT: an 'old:' text is in src/lib.rt 0 times, and not once", "BAD EDIT"),
    (f"{REFUSED} (only because a proof file names what the edit took away, so ..): ./proofs/f/Answers.antt:7:9: error: ..", "for its shape"),
    (f"{REFUSED} (only by a limit of the prover, which gave no verdict, so ..): ./proofs/f/Answers.antt:7:9: error: ..", "no fact is told"),
    (REFUSED, "no fact is told"),
    (f"{REFUSED}: ./proofs/f/Answers.antt:7:9: error: `returns`: `omega`: the goal does not follow from what it read", ""),
]


def edits():
    """Each edit: (crate/label, its first comment, its replacements), and of each of these the file, what stands there and what is to."""
    for path in sorted(pathlib.Path("crates").glob("*/must-fail/*.edit")):
        why, file, pairs, old = "", "", [], ""
        for line in path.read_text().split("\n"):
            if line.startswith("# ") and not why:
                why = line[2:]
            elif line.startswith("file: "):
                file = line[6:]
            elif line.startswith("old: "):
                old = line[5:]
            elif line.startswith("new:"):
                pairs.append((file, old, line[4:].removeprefix(" ")))
        yield f"{path.parts[1]}/{path.stem}", why, pairs


def misplaced(label, pairs):
    """Faults of an edit whose texts do not stand once in their files, as these are after the replacements before."""
    texts, out = {}, [] if pairs else [f"{label}: it replaces nothing"]
    for file, old, new in pairs:
        path = pathlib.Path("crates", label.split("/")[0], file)
        text = texts.get(path) or (path.read_text() if path.is_file() else "")
        if text.count(old) != 1:
            out.append(f"{label}: in {path} stands {text.count(old)} times: {old}")
        texts[path] = text.replace(old, new, 1)
    return out


def goals(crates, crate):
    """The goals of each function of a crate in a folder of crates, by the functions' names."""
    with tempfile.TemporaryDirectory() as room:
        subprocess.run(["rt", "names", room], cwd=crates / crate, capture_output=True, check=True)
        listed = json.loads(pathlib.Path(room, "names.json").read_text())
    found = {f: {goal for goal, _ in own} for key, of in listed.items() if key.startswith("off:") for f, own in of.items()}
    return {name.split("::", 1)[1]: own for name, own in found.items()}


@functools.cache
def unchanged(crate):
    return goals(pathlib.Path("crates"), crate)


def edited(crate, pairs):
    """The goals of each function of a crate with an edit in it."""
    with tempfile.TemporaryDirectory() as room:
        shutil.copyfile("crates.txt", pathlib.Path(room, "crates.txt"))
        copies = pathlib.Path(room, "crates")
        for path in sorted(pathlib.Path("crates").glob("*/*")):
            if path.name in PARTS:
                shutil.copytree(path, copies / path.parts[-2] / path.name)
        for file, old, new in pairs:
            path = copies / crate / file
            path.write_text(path.read_text().replace(old, new, 1))
        return goals(copies, crate)


@functools.cache
def functions(crate):
    """Each file of a crate's src/ with its functions: of each its path below the crate, and its places there."""
    texts = items.texts_of(crate)
    found = [(path.split("::", 1)[1], *own) for path, own in items.functions_in(crate, texts).items()]
    return {file: (text, [(path, it) for path, place, it in found if place == file]) for file, text in texts.items()}


def enclosing(crate, module, line):
    """The function that a line of a file of src/ stands in, as its path below the crate."""
    text, found = functions(crate)[f"{module}.rt"]
    end = len("\n".join(text.split("\n")[:line]))
    return next((path for path, it in reversed(found) if it.start < end), None)


def renamed(crate, pairs, words):
    """The answers that an edit left without their goals, where its refusal begins with a goal that the function has not else."""
    found = OPEN.search(words)
    if not found:
        return []
    function, goal, is_whole = enclosing(crate, found[1], int(found[2])), found[3].split("-clause-")[0], found[4] == "`)"
    answers = pathlib.Path("crates", crate, "proofs", *(function or "").split("::"), "Answers.antt")
    if not function or not answers.is_file() or not ANSWER.search(answers.read_text()):
        return []
    if any(it == goal if is_whole else it.startswith(goal) for it in unchanged(crate).get(function, set())):
        return []
    left, text = edited(crate, pairs).get(function, set()), answers.read_text()
    for file, old, new in pairs:
        text = text.replace(old, new, 1) if pathlib.Path("crates", crate, file) == answers else text
    return [name for name in ANSWER.findall(text) if name.split("-clause-")[0] not in left]


def unrefused(label, pairs, said):
    """Faults of what rt said of an edit."""
    words = said.get(label)
    if words is None:
        return [f"{label}: not a word of it: it was not tried"]
    if not words.startswith(REFUSED):
        return [f"{label}: {words[:240]}"]
    told = words[len(REFUSED) :].strip()
    if told.startswith("(only because a proof file names what the edit took away"):
        return [f"{label}: refused for its shape alone: {told[-160:]}"]
    if told.startswith("(") or not told.startswith(": "):
        return [f"{label}: refused, and no fact is told that no longer holds: {told[:240]}"]
    lost = renamed(label.split("/")[0], pairs, told)
    return [f"{label}: refused for its shape alone: no goal is left for the answer {lost[0]}{told[:160]}"] if lost else []


def read_log(path):
    """What rt said of each edit, and of files that are none."""
    said, faults = {}, []
    for line in path.read_text(errors="replace").split("\n"):
        found, stray = SAID.match(line), STRAY.match(line)
        if found:
            said[f"{found[1]}/{found[2]}"] = found[3]
        elif stray:
            faults.append(f"{stray[1]}: {stray[2]}")
    return said, faults


def unseen():
    """The ways to fail that are not seen, and a refusal for a fact that is taken for one."""
    faults = [(due, unrefused("crate/label", [], {} if words is None else {"crate/label": words})) for words, due in WAYS]
    return [f"not seen, or seen where it is not: {due or 'a fact'}" for due, found in faults if bool(found) != bool(due) or due not in "".join(found)]


def unowned():
    """The folders of proofs/ with answers that are of no line of src/: a refusal there would not be looked up."""
    out = []
    for crate in sorted({path.parts[1] for path in pathlib.Path("crates").glob("*/proofs")}):
        found = {enclosing(crate, file[:-3], k + 1) for file, (text, _) in functions(crate).items() for k in range(text.count("\n"))}
        folders = pathlib.Path("crates", crate, "proofs").glob("*/**/Answers.antt")
        out += [str(it.parent) for it in folders if "::".join(it.parent.parts[3:]) not in found]
    return out


def table(rows):
    lines = [
        "# Must-fail edits",
        "",
        "Each edit changes an operand or a constant (or, for an order, exchanges two lines), and `rt ci` holds the prover to",
        "refusing it. Where a proof names a step after what is changed, the edit brings the name along, which is not shown here.",
        "Made by `tests/must_fail.py --table`; the same script, given what a run of `rt ci` printed, fails where an edit was refused",
        "for its shape alone.",
        "",
        "| Edit | What it would do | File | From | To |",
        "|---|---|---|---|---|",
    ]

    def code(text):
        return "`` " + text.replace("|", "\\|") + " ``"

    for label, why, every in rows:
        pairs = [pair for pair in every if not pair[0].startswith("proofs/")] or every
        files = "; ".join(dict.fromkeys(file for file, _, _ in pairs))
        old = "; ".join(code(o) for _, o, _ in pairs)
        new = "; ".join(code(n) for _, _, n in pairs)
        lines.append(f"| {label} | {why} | {files} | {old} | {new} |")
    return "\n".join(lines) + "\n"


def main():
    words = sys.argv[1:]
    if len(words) != 1 or (words[0].startswith("-") and words[0] not in ("--edits", "--table", "--self-test")):
        sys.exit(__doc__)
    if words == ["--self-test"]:
        found, strays = unseen(), [f"of no function: {folder}" for folder in unowned()]
        print(*found, *strays, f"{len(WAYS)} ways, {len(found)} not seen", sep="\n")
        return 1 if found or strays else 0
    rows = list(edits())
    if words == ["--table"]:
        sys.stdout.write(table(rows))
        return 0
    said, faults = ({}, []) if words == ["--edits"] else read_log(pathlib.Path(words[0]))
    for label, why, pairs in rows:
        if not why:
            faults.append(f"{label}: its first line does not say what it would do")
        faults += misplaced(label, pairs) if words == ["--edits"] else unrefused(label, pairs, said)
    faults += [f"{label}: a line of no edit" for label in sorted(set(said) - {label for label, _, _ in rows})]
    if not TABLE.exists() or TABLE.read_text() != table(rows):
        faults.append(f"{TABLE} is not the table of these edits: tests/must_fail.py --table > {TABLE}")
    for fault in faults:
        print(fault, file=sys.stderr)
    print(f"{len(rows)} edits, {len(faults)} faults" if rows else "no edit was found")
    return 1 if faults or not rows else 0


sys.exit(main())
