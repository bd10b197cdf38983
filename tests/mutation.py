#!/usr/bin/env python3
"""mutation.py run CRATE.. | alone COUNT CRATE.. | report CRATE..: every operator and constant of the libraries, changed once.

Run it at the repository's root, once the crates below are built there (by `rt ci`, or by a check of a crate above them).
docs/MUTATION.md says what is changed, and how; no CRATE means every library. `run` tries what has no verdict yet, and goes on
where an earlier run was cut. `alone` tries COUNT mutants of each crate once more, each by itself and from nothing, and those that
stand. `report` prints the table, and each mutant that is not refused.
"""
import collections
import pathlib
import sys
import time

sys.dont_write_bytecode = True
sys.path[:0] = [str(pathlib.Path(__file__).resolve().parent / part) for part in ("mutation", ".")]
import crate as crates  # noqa: E402
import kit  # noqa: E402

DOCUMENT = pathlib.Path("docs/MUTATION.md")


# The benchmark's: its contracts say that it is safe and ends, and not what it works out.
OPEN = ("bench_rosenbrock",)


def libraries():
    """Every library that has code and says what it works out."""
    names = [name for name in kit.leans() if pathlib.Path("crates", name, "src/lib.rt").exists()]
    return [name for name in names if name not in OPEN and crates.Crate(name).sites]


def run(name):
    """Tries what is pending of a crate, once each function's unchanged copy is proved."""
    own, faults = crates.Crate(name), []
    own.room.mkdir(parents=True, exist_ok=True)
    if missing := [it for it in kit.below(name) if not kit.rlib(it).is_dir()]:
        sys.exit(f"{name}: {kit.rlib(missing[0])} is missing: run `rt check` in crates/{name}")
    if own.pending() and (unproved := own.control()):
        sys.exit(f"{name}: an unchanged copy of a function is not proved: {own.room}/log: {unproved}")
    while pending := own.pending():
        done = 0
        for chosen in runs(pending):
            began, done = time.time(), done + len(chosen)
            found = own.try_in_place(chosen[0]) if chosen[0][0].item.lone else own.try_together(chosen)
            faults += found
            print(f"{name}: {done} of {len(pending)} mutants, {time.time() - began:.0f} s", *found, flush=True)
    return faults


def runs(pending):
    """What is tried in each run: many mutants beside their functions, or one where its function stands."""
    beside = [trial for trial in pending if not trial[0].item.lone]
    yield from (beside[k : k + crates.TOGETHER] for k in range(0, len(beside), crates.TOGETHER))
    yield from ([trial] for trial in pending if trial[0].item.lone)


def sampled(own, count):
    """Count refused mutants of a crate, spread over its sites, and all that stand."""
    best, _ = own.results()
    known = [(site, best[site.key()]) for site in own.sites if site.key() in best]
    refused = [pair for pair in known if pair[1]["verdict"] == crates.REFUSED]
    stand = [pair for pair in known if pair[1]["verdict"] == crates.STANDS]
    return [refused[k * len(refused) // count] for k in range(min(count, len(refused)))] + stand


def alone(name, count):
    """Tries a sample of a crate's mutants one by one and from nothing, and compares the verdicts and the reasons."""
    own, faults = crates.Crate(name), []
    own.room.mkdir(parents=True, exist_ok=True)
    sample = sampled(own, count)
    for site, record in sample:
        verdict, reason, proved, seconds = own.tried_alone((site, record["which"]))
        same = (verdict, proved) == (record["verdict"], verdict == crates.STANDS)
        faults += [] if same else [f"{site.key()}: {record['verdict']} together, {verdict} alone: {reason}"]
        print(f"{site.key()}: {verdict}, {seconds:.0f} s{'' if same else ', a fault'}", flush=True)
    print(f"{name}: {len(sample)} alone, {len(faults)} faults", flush=True)
    return faults


def code(text):
    return "`` " + text.replace("|", "\\|") + " ``"


def listed():
    """The rows of docs/MUTATION.md that name a mutant, as (function, line, changed line) to the reason."""
    rows = {}
    for line in DOCUMENT.read_text().split("\n") if DOCUMENT.exists() else []:
        cells = [cell.strip() for cell in line.split(" | ")]
        if len(cells) == 4 and cells[1].startswith("``"):
            rows[cells[0].removeprefix("| "), cells[1], cells[2]] = cells[3].removesuffix("|").strip()
    return rows


def report(names):
    """Prints the table by crate and a row for each mutant that is not refused for a fact. A fault: a mutant with no verdict, one
    that is not refused and has no row with a reason in the document, a row of no such mutant."""
    rows, faults, open_rows, sums = listed(), [], [], collections.Counter()
    print("| Crate | functions | mutants | refused | shape alone | stand | seconds |\n|---|---|---|---|---|---|---|")
    for name in names:
        own = crates.Crate(name)
        best, seconds = own.results()
        count = collections.Counter({"functions": len(own.functions), "mutants": len(own.sites), "seconds": round(seconds)})
        for site in own.sites:
            record = best.get(site.key(), {"verdict": "no verdict", "which": 0})
            count[record["verdict"]] += 1
            if record["verdict"] != crates.REFUSED:
                row = (site.function, *map(code, site.lines(own.texts[site.file], record["which"])))
                open_rows.append((*row, rows.pop(row, "")))
                faults += [] if open_rows[-1][3] and record["verdict"] != "no verdict" else [f"{site.key()}: {record['verdict']}"]
        sums += count
        print_counts(name, count)
    print_counts("together", sums)
    print("\n| Function | Line | Changed | Why |\n|---|---|---|---|")
    for row in open_rows:
        print("| " + " | ".join(row) + " |")
    return faults + [f"a row of no mutant: {row}" for row in rows if row[0].split("::")[0] in names]


def print_counts(name, count):
    columns = ("functions", "mutants", crates.REFUSED, crates.SHAPE, crates.STANDS, "seconds")
    print(f"| {name} | " + " | ".join(str(count[column]) for column in columns) + " |")


def main():
    command, *rest = sys.argv[1:] or [""]
    if command == "run":
        faults = [fault for name in rest or libraries() for fault in run(name)]
    elif command == "alone" and rest:
        faults = [fault for name in rest[1:] or libraries() for fault in alone(name, int(rest[0]))]
    elif command == "report":
        faults = report(rest or libraries())
    else:
        sys.exit(__doc__)
    for fault in faults:
        print(fault, file=sys.stderr)
    print(f"{len(faults)} faults", file=sys.stderr)
    return 1 if faults else 0


if __name__ == "__main__":
    sys.exit(main())
