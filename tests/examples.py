#!/usr/bin/env python3
"""examples.py: whether examples/ does what examples/README.md says. Run it anywhere, once crates/fit/out/fit is built.

It prints a line for each thing that holds, and stops with status 1 at the first that does not.
"""
import itertools
import math
import os
import pathlib
import random
import re
import subprocess
import sys
import tempfile

sys.dont_write_bytecode = True
ROOT = pathlib.Path(__file__).resolve().parent.parent
os.chdir(ROOT)
sys.path.insert(0, str(ROOT / "examples"))
import analyser  # noqa: E402

JOBS = ("simplex", "bfgs", "lbfgs")
RATES = ("0.1", "0.2", "0.3333333333333333")
SEEDS = range(1, 9)
# The farthest that an end may lie from the true emitter, in m: with the survey's noise, and with none.
NOISY, EXACT = 20.0, 0.05
SECONDS = 60
WRONG = (
    ["newton"],
    ["simplex", "bfgs"],
    ["--program", "target/none"],
    ["--program", "tests"],
    ["--program", "README.md"],
    ["--survey", "none.txt"],
    ["--survey", "README.md"],
    ["--survey", "crates/fit/out/fit"],
    ["--loss", "0.6"],
    ["--loss", "nan"],
    ["--loss", "x"],
    ["--seed", "x"],
    ["--svg", "target/none/a.svg"],
    ["--svg", "a.svg", "--check"],
)


class Wrong(Exception):
    pass


def hold(what, fact):
    if not fact:
        raise Wrong(what)


def run(script, *words, given=None, path=None, cwd=None):
    command = [sys.executable, str(path or f"examples/{script}.py"), *map(str, words)]
    return subprocess.run(command, input=given, capture_output=True, text=True, timeout=SECONDS, cwd=cwd)


def located(*words):
    """What locate.py prints, by name."""
    ran = run("locate", *words)
    hold(f"locate.py {' '.join(map(str, words))}: status {ran.returncode}, {ran.stderr}", ran.returncode == 0 and not ran.stderr)
    return {line[:15].strip(): line[16:] for line in ran.stdout.splitlines()}


def modelled(survey, mast):
    """The power at a mast by the words of survey.txt, with no code of the analyser's."""
    x, y, factor = survey.true
    distance = math.sqrt((x - mast.x) ** 2 + (y - mast.y) ** 2 + survey.height**2)
    return survey.eirp - 20 * math.log10(distance) + 10 * math.log10(0.6) - factor


def readings(folder):
    """The readings are the model's with the noise that survey.txt states."""
    survey, noise = analyser.survey_of(analyser.SURVEY), random.Random(1)
    for mast in survey.masts:
        due = [round(modelled(survey, mast) + noise.gauss(0, 0.5), 1) for _ in mast.readings]
        hold(f"mast {mast.name}: {mast.readings}, due {due}", mast.readings == due)
    return f"{sum(len(mast.readings) for mast in survey.masts)} readings"


def gradients(folder):
    """The gradient agrees with central differences, beside masts too."""
    survey, chance, worst = analyser.survey_of(analyser.SURVEY), random.Random(1), 0.0
    points = [[chance.uniform(-1, 5), chance.uniform(-1, 4), chance.uniform(0, 4)] for _ in range(1000)]
    points += [[(mast.x + 1) / 100, (mast.y - 2) / 100, 2.0] for mast in survey.masts]
    for point in points:
        gradient = analyser.misfit(survey, point)[1]
        for i in range(3):
            ahead, behind = ([c + (step if j == i else 0) for j, c in enumerate(point)] for step in (1e-5, -1e-5))
            slope = (analyser.misfit(survey, ahead)[0] - analyser.misfit(survey, behind)[0]) / (ahead[i] - behind[i])
            error = abs(slope - gradient[i]) / max(1.0, math.hypot(*gradient))
            hold(f"gradient at {point}, coordinate {i}: {gradient[i]}, by differences {slope}", error < 1e-7)
            worst = max(worst, error)
    return f"{len(points)} points, largest error {worst:.1e} of the gradient's length"


def answers(folder):
    """An answer has the question's number and kind, and depends on the point alone."""
    survey, point = analyser.survey_of(analyser.SURVEY), [0.5, 2.5, 1.75]
    word = analyser.words_of(point)
    value, gradient = analyser.misfit(survey, point)
    lines = [f"7 V {analyser.words_of([value])}", f"8 G {analyser.words_of(gradient)}", f"3 V {analyser.words_of([value])}"]
    ran = run("analyser", given=f"ask 7 V {word}\nask 8 G {word}\nask 3 V {word}\n")
    hold(f"the analyser's answers: {ran.stdout}{ran.stderr}", ran.stdout.splitlines() == lines and not ran.stderr)
    return f"{len(lines)} answers"


def ends(folder):
    """Each job ends near the true emitter, and at it where the readings have no noise."""
    survey, exact = analyser.survey_of(analyser.SURVEY), folder / "exact.txt"
    lines = [f"eirp {survey.eirp}", f"height {survey.height}"]
    lines += [f"{key} " + " ".join(map(str, getattr(survey, key))) for key in ("start", "true")]
    lines += [f"mast {mast.name} {mast.x} {mast.y} {modelled(survey, mast)!r}" for mast in survey.masts]
    exact.write_text("\n".join(lines) + "\n")
    found = []
    for job in JOBS:
        for path, bound in ((analyser.SURVEY, NOISY), (exact, EXACT)):
            told = located(job, "--survey", path, "--svg", folder / "end.svg")
            _, reason, converged, _, values, slopes, *words = told["end line"].split(" ")
            misfit, *point = analyser.values_of(" ".join(words))
            off = math.dist([100 * c for c in point[:2]], survey.true[:2])
            hold(f"{job}: {reason}, {converged}", converged == "yes")
            hold(f"{job}: {off} m from the true emitter", off < bound)
            hold(f"{job}: not the misfit at its x", misfit == analyser.misfit(analyser.survey_of(path), point)[0])
            hold(f"{job}: {told['questions']}", int(told["questions"].split(":")[0]) == int(values) + int(slopes))
            found.append(f"{job} {off:.4f} m")
    return ", ".join(found)


def losses(folder):
    """A link that loses and repeats lines changes neither the end nor the picture."""
    fits, counts = 0, [0, 0, 0, 0]
    for job in JOBS:
        due = located(job, "--svg", folder / "due.svg")
        for rate, seed in itertools.product(RATES, SEEDS):
            came = located(job, "--loss", rate, "--seed", seed, "--svg", folder / "came.svg")
            name = f"{job}, loss {rate}, seed {seed}"
            hold(f"{name}: {came['end line']}, due {due['end line']}", came["end line"] == due["end line"])
            hold(f"{name}: another picture", (folder / "came.svg").read_bytes() == (folder / "due.svg").read_bytes())
            counts = [c + int(word) for c, word in zip(counts, re.findall("[0-9]+", came["link"]))]
            fits += 1
    sent, lost, repeated, late = counts
    hold(f"of {sent} lines {lost} lost, {repeated} repeated, {late} too late", lost and repeated and late)
    return f"{fits} fits, {sent} lines sent, {lost} lost, {repeated} repeated, {late} answers too late"


def pictures(folder):
    """The committed pictures are those drawn now, and another survey's is not."""
    other = folder / "other.txt"
    other.write_text(analyser.SURVEY.read_text().replace("-48.2", "-47.2"))
    for job in JOBS:
        located(job, "--check")
        ran = run("locate", job, "--check", "--survey", other)
        hold(f"{job}: status {ran.returncode} for another picture", ran.returncode == 1 and ran.stderr.count("\n") == 1)
    return f"{len(JOBS)} pictures"


def places(folder):
    """It runs from any folder, by any path and through a symbolic link, with the fit program of the repository that it stands in."""
    here, link = ROOT / "examples/locate.py", folder / "link.py"
    link.symlink_to(here)
    due = run("locate", "bfgs", "--check").stdout.splitlines()[:-1]
    ways = [(folder, here), (folder, link), (folder, os.path.relpath(here, folder)), (pathlib.Path("/"), here)]
    ways.append((ROOT / "docs", "../examples/locate.py"))
    for cwd, path in ways:
        ran = run("locate", "bfgs", "--check", path=path, cwd=cwd)
        name = f"{path}, in {cwd}: status {ran.returncode}, {ran.stdout}{ran.stderr}"
        hold(name, ran.returncode == 0 and not ran.stderr and ran.stdout.splitlines()[:-1] == due)
    return f"{len(ways)} ways to it"


def uses(folder):
    """Wrong use gives status 2, one line on standard error and nothing else."""
    text = analyser.SURVEY.read_text()
    spoilt = [
        text.replace("-48.2", "nan"),
        text.replace("-48.2", "x"),
        text.replace("400.0", "1e300"),
        text.replace("eirp ", "erp "),
        text.replace("eirp ", "# "),
        text.replace("height  10.0", "height  0.9"),
        text.replace("mast  A", "mast"),
        text.replace("mast  A", "# ").replace("mast  B", "# "),
        text.replace("400.0     20.0", "0.0 0.0").replace("370.0    310.0", "0.0 0.0"),
        text + "start 1 2 3\n",
    ]
    cases = [("locate", words) for words in WRONG] + [("analyser", ["none.txt"]), ("analyser", ["a", "b"])]
    for i, one in enumerate(spoilt):
        (folder / f"{i}.txt").write_text(one)
        cases += [("locate", ["--survey", folder / f"{i}.txt"]), ("analyser", [folder / f"{i}.txt"])]
    lines = ["end", "ask 1 V", "ask 1 V 3FF0000000000000", "ask 1 W" + 3 * " 3FF0000000000000", "ask 1 V" + 3 * " 3ff0000000000000"]
    for script, words, given in [(*case, "") for case in cases] + [("analyser", [], line + "\n") for line in lines]:
        ran = run(script, *words, given=given)
        name = f"{script}.py {' '.join(map(str, words))} {given.strip()}: status {ran.returncode}, {ran.stdout}{ran.stderr}"
        hold(name, ran.returncode == 2 and not ran.stdout and ran.stderr.count("\n") == 1)
    return f"{len(cases) + len(lines)} wrong uses"


def main():
    with tempfile.TemporaryDirectory() as folder:
        for check in (readings, gradients, answers, ends, losses, pictures, places, uses):
            try:
                print(f"{check.__name__}: {check(pathlib.Path(folder))}", flush=True)
            except (Wrong, OSError, analyser.Wrong, subprocess.TimeoutExpired) as why:
                print(f"{check.__name__}: {why}", file=sys.stderr)
                return 1
    return 0


sys.exit(main())
