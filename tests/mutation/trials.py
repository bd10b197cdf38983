"""The prover over a copy of a crate: the names in it that proofs cite, and what it says of each function.

The copies are in a temporary folder, since `rt ci` refuses a file of Rattle anywhere but in a crate."""
import atexit
import dataclasses
import json
import pathlib
import re
import shutil
import subprocess
import tempfile
import time

import kit

# What is recorded, and kept from run to run.
ROOM = pathlib.Path("target/mutation")
COPIES = pathlib.Path(tempfile.mkdtemp(prefix="mutation-"))
atexit.register(shutil.rmtree, COPIES, True)
# An error that only says that something else was refused.
FOLLOWS = re.compile(r"was not admitted \(it has holes or undetermined implicits, or was rejected\), so this cannot be checked")
# An error that only says that the proof names what the code no longer has, as rt has it of a must-fail edit.
SHAPE = re.compile(r"has no field|is not in scope|has no `[^`]*` that can be named from here|was not admitted")
# A goal that nothing proves: its name, behind the place and the words.
OPEN = re.compile(r"^note: (\S+?):(\d+):\d+: (it is not proved .*?\(`([^`\s]+)`\).*)", re.MULTILINE)
SECONDS = 600


@dataclasses.dataclass
class Said:
    """What a run said: whether it came to a verdict, each function's line, the errors in its files, in order, and the goals that
    nothing proves, by their places."""

    proved: bool = False
    verdict: bool = False
    lines: dict = dataclasses.field(default_factory=dict)
    errors: dict = dataclasses.field(default_factory=dict)
    stray: list = dataclasses.field(default_factory=list)
    open: list = dataclasses.field(default_factory=list)
    seconds: float = 0.0


def names(crate, where):
    """The names of each function of the copy that proofs cite, by the function: its goals, and its places with their steps. Else
    what the front end says of the copy."""
    with tempfile.TemporaryDirectory() as to:
        flags = ["--generated", to, "--old-names"]
        ran = subprocess.run([*kit.words("check", crate, "src/lib.rt"), *flags], cwd=where, capture_output=True, text=True, errors="replace")
        listed = pathlib.Path(to, "names.json")
        if not listed.exists():
            return None, read(crate, where, ran.stdout + ran.stderr)
        found = {}
        for key, own in json.loads(listed.read_text()).items():
            path = re.fullmatch(rf"Rattle-{crate}-proofs\.(.+)\.Lts", key)
            if path:
                goals = [goal for _, goal in own["needs"]]
                steps = [(place, step) for place, (_, _, (_, step), *_) in zip(own["places_by_name"], own["places"])]
                found[f"{crate}::" + path[1].replace(".", "::")] = goals, steps
        return found, None


def other_names(of, copy):
    """The names of a function that are others in a copy of it, place by place; none where the two have not as many."""
    if len(of[0]) != len(copy[0]) or len(of[1]) != len(copy[1]):
        return {}
    out = dict(zip(of[0], copy[0]))
    for (place, step), (other, other_step) in zip(of[1], copy[1]):
        out |= {place: other, place[:1].lower() + place[1:]: other[:1].lower() + other[1:], step: other_step}
    return {name: other for name, other in out.items() if name and name != other}


def fresh(crate, where):
    """A copy of the crate."""
    for part in ("src", "specs", "proofs"):
        shutil.rmtree(where / part, ignore_errors=True)
        if pathlib.Path("crates", crate, part).is_dir():
            shutil.copytree(pathlib.Path("crates", crate, part), where / part)


def run(crate, where, *more):
    """The check of the copy. What it says is kept beside the records too."""
    began = time.time()
    try:
        words = [*kit.words("check", crate, "src/lib.rt"), *kit.jobs(), *more]
        done = subprocess.run(words, cwd=where, capture_output=True, text=True, errors="replace", timeout=SECONDS)
        log = done.stdout + done.stderr
    except subprocess.TimeoutExpired:
        log = ""
    (ROOM / crate / "log").write_text(log)
    said = read(crate, where, log)
    said.seconds = time.time() - began
    return said


def read(crate, where, log):
    """What a log says. An error stands in a function's folder of proofs/, or in src/ at a line of a function, as an open goal does."""
    said = Said()
    named = re.findall(r"^fn (\S+): (.*)", log, re.MULTILINE)
    said.lines = {name: line for name, line in named if name.startswith(crate + "::")}
    said.verdict = bool(re.search(r"^logic=", log, re.MULTILINE))
    said.proved = bool(re.search(r"^logic=proved", log, re.MULTILINE))
    said.open = [(place.removeprefix("./"), int(line), words, goal) for place, line, words, goal in OPEN.findall(log)]
    folders = {name: "proofs/" + "/".join(name.split("::")[1:]) for name in said.lines}
    for place, line, message in re.findall(r"^(\S+?):(\d+):\d+: error(?:\[[\w-]+\])?: (.*)", log, re.MULTILINE):
        place = place.removeprefix("./").removeprefix(f"{where}/")
        owner = [name for name, folder in folders.items() if place.startswith(folder + "/") or place == folder + ".antt"]
        if owner:
            said.errors.setdefault(owner[0], []).append((f"{place}:{line}", message))
        else:
            said.stray.append((place, int(line), message))
    return said


def closures(said, function):
    """What the prover has of a function's closures, each under a name of its own: those of `f` in a file `a` are `a::fn::f::..`."""
    return [name for name in said.lines if "::fn::" in name and name.replace("::fn::", "::", 1).startswith(function + "::")]


def own_error(said, function):
    """The first error of a function that does not merely follow from another's refusal."""
    for place, message in said.errors.get(function, []):
        if not FOLLOWS.search(message):
            return place, message
    return None
