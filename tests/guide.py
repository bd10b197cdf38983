#!/usr/bin/env python3
"""guide.py [--jobs] [GUIDE]: whether docs/GUIDE.md is true of the programs. Run it at the repository's root, once the
programs are built.

It fails (exit status 1) where
- a dialogue, a block fenced as `fit` or `test_bare_jobs`, is not what crates/NAME/out/NAME prints: lines given
  behind `< `, lines due behind `> ` and after the line that brings them, remarks behind `# `, an empty line between two;
- a command behind `$ ` in a block fenced as `console` does not print the lines below it;
- a word in a cell of a table is not the number in the next cell, or a word of a dialogue stands in no table;
- the table of jobs is not what the jobs come to. `--jobs` prints that table.
"""
import math
import pathlib
import re
import struct
import subprocess
import sys

PROGRAMS = ("fit", "test_bare_jobs")
WORD = re.compile(r"\b[0-9A-F]{16}\b")
SECONDS = 60
JOBS_HEAD = "| Job | questions | reason | converged | iterations | fevals | gevals | f | east | north | strength |"
# Five places of the analyser, in metres, and the strength read there: 400 over the square of the distance from (6, -3).
PLACES = [(0.0, 0.0), (20.0, 0.0), (0.0, 20.0), (20.0, 20.0), (10.0, -10.0)]
EMITTER = (6.0, -3.0, 400.0)
START = (10.0, 5.0, 300.0)
# Options of line 2, as the Rust's defaults have them: those written as bits, and the rest.
SIMPLEX = (1e-8, 1e-8, 0.05)
GRADIENT = (1e-8, 0.0, 0.0, 1e-4, 0.9, 1e10)
# A row's name, the job, line 2, and whether values are told to 1/1024 alone.
JOBS = [
    ("simplex", "simplex", (SIMPLEX, "- - 0 1"), False),
    ("simplex, restarts 1", "simplex", (SIMPLEX, "- - 1 1"), False),
    ("bfgs, gradients 1", "bfgs", (GRADIENT, "- - 30 0 1"), False),
    ("bfgs, gradients 0", "bfgs", (GRADIENT, "- - 30 0 0"), False),
    ("lbfgs, gradients 1", "lbfgs", (GRADIENT, "- - 30 10 1"), False),
    ("lbfgs, gradients 0", "lbfgs", (GRADIENT, "- - 30 10 0"), False),
    ("simplex, rounded", "simplex", (SIMPLEX, "- - 0 1"), True),
    ("bfgs, gradients 1, rounded", "bfgs", (GRADIENT, "- - 30 0 1"), True),
    ("bfgs, gradients 0, rounded", "bfgs", (GRADIENT, "- - 30 0 0"), True),
]


def binary(program):
    return f"crates/{program}/out/{program}"


def word(value):
    return struct.pack(">d", value).hex().upper()


def value(text):
    return struct.unpack(">d", bytes.fromhex(text))[0]


def words(values):
    return " ".join(word(v) for v in values)


# ---- the blocks and tables of the guide


def blocks(lines):
    """Each fenced block: its language, the number of its first line, its lines."""
    language, start, held = None, 0, []
    for number, line in enumerate(lines, 1):
        if not line.startswith("```"):
            held.append(line)
        elif language is None:
            language, start, held = line[3:], number + 1, []
        else:
            yield language, start, held
            language = None


def cells(lines):
    """The cells of each row of a table, with the row's number."""
    for number, line in enumerate(lines, 1):
        if line.startswith("|"):
            yield number, [c.strip().strip("`") for c in line.split("|")[1:-1]]


def output(command, given="", shell=False):
    run = subprocess.run(command, input=given, capture_output=True, text=True, shell=shell, timeout=SECONDS)
    return run.stdout + run.stderr


def dialogue(program, start, lines):
    """Faults of one block: after each line given, exactly the lines due so far have been printed."""
    given, due = "", ""
    for number, line in enumerate(lines + [""], start):
        if not line.startswith(("> ", "# ")) and given + due:
            came = output([binary(program)], given)
            if came != due:
                return [f"{number - 1}: due {due.splitlines()[-1:]}, came {came.splitlines()[-1:]}"]
        if not line:
            given, due = "", ""
        elif line.startswith("<"):
            given += line[2:] + "\n"
        elif line.startswith("> "):
            due += line[2:] + "\n"
        elif not line.startswith("# "):
            return [f"{number}: neither given nor due: {line}"]
    return []


def commands(start, lines):
    """Faults of a block of commands with what they print."""
    faults, at = [], [i for i, line in enumerate(lines) if line.startswith("$ ")]
    for i, after in zip(at, at[1:] + [len(lines)]):
        due = "".join(line + "\n" for line in lines[i + 1 : after])
        came = output(lines[i][2:], shell=True)
        if came != due:
            faults.append(f"{start + i}: due {due!r}, came {came!r}")
    return faults


def numbers(lines):
    """The words that stand in tables, and the faults of those that are not the number in the next cell."""
    known, faults = set(), []
    for number, row in cells(lines):
        for cell, beside in zip(row, row[1:]):
            if WORD.fullmatch(cell):
                known.add(cell)
                if word(float(beside)) != cell:
                    faults.append(f"{number}: {cell} is {value(cell)!r}, not {beside}")
    return known, faults


# ---- one misfit, fitted by each job


def residuals(x):
    """What the model says less what was read, with the place's distance squared."""
    for px, py in PLACES:
        dx, dy = EMITTER[0] - px, EMITTER[1] - py
        read = EMITTER[2] / (dx * dx + dy * dy)
        dx, dy = x[0] - px, x[1] - py
        square = dx * dx + dy * dy
        yield x[2] / square - read, dx, dy, square


def misfit(x, rounded):
    total = 0.0
    for r, _, _, _ in residuals(x):
        total += r * r
    return [math.floor(total * 1024.0 + 0.5) / 1024.0 if rounded else total]


def slopes(x):
    g = [0.0, 0.0, 0.0]
    for r, dx, dy, square in residuals(x):
        pull = -2.0 * x[2] / (square * square)
        g[0] += 2.0 * r * pull * dx
        g[1] += 2.0 * r * pull * dy
        g[2] += 2.0 * r / square
    return g


def fitted(job, options, rounded):
    """The end line of a fit of the misfit, in fields, and how many questions it put."""
    with subprocess.Popen([binary("fit")], stdin=subprocess.PIPE, stdout=subprocess.PIPE, text=True, bufsize=1) as talk:
        talk.stdin.write(f"{job} 3\n{words(options[0])} {options[1]}\n{words(START)}\n")
        asked = 0
        while True:
            reply = talk.stdout.readline().split()
            if reply[0] != "ask":
                return reply, asked
            asked += 1
            x = [value(w) for w in reply[3:]]
            told = misfit(x, rounded) if reply[2] == "V" else slopes(x)
            talk.stdin.write(f"{reply[1]} {reply[2]} {words(told)}\n")


def jobs():
    rows = [JOBS_HEAD, "|" + "---|" * JOBS_HEAD.count(" | ") + "---|"]
    for name, job, options, rounded in JOBS:
        end, asked = fitted(job, options, rounded)
        decimals = [f"{value(w):.3g}" for w in end[6:7]] + [f"{value(w):.7g}" for w in end[7:]]
        rows.append("| " + " | ".join([name, str(asked)] + end[1:6] + decimals) + " |")
    return rows


def main():
    missing = [p for p in PROGRAMS if not pathlib.Path(binary(p)).exists()]
    if missing:
        print(f"{binary(missing[0])} is missing: rt run in crates/{missing[0]} builds it", file=sys.stderr)
        return 1
    given = [a for a in sys.argv[1:] if a != "--jobs"]
    guide = pathlib.Path(given[0] if given else "docs/GUIDE.md")
    if "--jobs" in sys.argv[1:]:
        print("\n".join(jobs()))
        return 0
    text = guide.read_text()
    known, faults = numbers(text.split("\n"))
    played = 0
    for language, start, lines in blocks(text.split("\n")):
        if language in PROGRAMS:
            played += 1
            faults += dialogue(language, start, lines)
            used = {w for line in lines for w in WORD.findall(line)}
            faults += [f"{start}: {w} stands in no table" for w in sorted(used - known)]
        elif language == "console":
            played += 1
            faults += commands(start, lines)
        elif language:
            faults.append(f"{start}: a block of no known kind: {language}")
    if "\n".join(jobs()) not in text:
        faults.append("the table of jobs is not the one that --jobs prints")
    for fault in faults:
        print(f"{guide}:{fault}", file=sys.stderr)
    print(f"{played} blocks, {len(known)} words, {len(faults)} faults")
    return 1 if faults or not played or not known else 0


sys.exit(main())
