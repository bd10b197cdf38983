#!/usr/bin/env python3
"""locate.py [JOB]: the tablet of the example. It fits an emitter's position and antenna factor, and draws the way there.

It runs the fit program and the analyser as two processes, passes the questions of one to the other and the answers back, prints
the end in plain numbers and writes a picture. JOB is simplex, bfgs or lbfgs. It may be run from any folder: the fit program is
crates/fit/out/fit of the repository that it stands in, and the picture goes into target/ there. Wrong use gives one line and
status 2, a fit that has no end one line and status 1.
"""
import argparse
import math
import os
import pathlib
import random
import subprocess
import sys

sys.dont_write_bytecode = True
import analyser
import picture
from analyser import Wrong

HERE = pathlib.Path(os.path.relpath(pathlib.Path(__file__).resolve().parent))
FIT = HERE.parent / "crates/fit/out/fit"
TARGET = HERE.parent / "target"
JOBS = ("simplex", "bfgs", "lbfgs")


class Failed(Exception):
    """A fit that has no end, told in one line."""


class Child:
    """A process that replies to lines with lines."""

    def __init__(self, name, command):
        self.name = name
        try:
            self.process = subprocess.Popen(command, stdin=subprocess.PIPE, stdout=subprocess.PIPE, encoding="latin-1")
        except OSError as why:
            raise Wrong(f"{command[0]}: {why.strerror}") from None

    def __enter__(self):
        return self

    def __exit__(self, *_):
        self.process.kill()
        self.process.communicate()

    def reply(self, lines):
        """The line that comes back for what is sent."""
        try:
            self.process.stdin.write(lines + "\n")
            self.process.stdin.flush()
            line = self.process.stdout.readline()
        except BrokenPipeError:
            line = ""
        if not line.endswith("\n"):
            raise Failed(f"{self.name} ended and did not reply to: {lines.splitlines()[-1]}")
        return line[:-1]


class Link:
    """One direction between tablet and analyser. It loses lines, and repeats lines at once or behind the one that follows."""

    def __init__(self, loss, chance):
        self.loss, self.chance, self.late = loss, chance, []
        self.sent = self.lost = self.repeated = 0

    def happens(self):
        return self.chance.random() < self.loss

    def carried(self, line):
        """The lines that arrive when this one is sent."""
        arrived, self.late = self.late, []
        self.sent += 1
        if self.happens():
            self.lost += 1
        else:
            arrived.insert(0, line)
        if self.happens():
            self.repeated += 1
            (arrived if self.chance.random() < 0.5 else self.late).append(line)
        return arrived


class Tablet:
    """The fit as the tablet follows it: its questions in order, the reply that stands, and how many answers came too late."""

    def __init__(self, fit, job, start):
        self.fit, self.questions, self.stands, self.late = fit, [], "", 0
        self.hear(start_lines(job, start))

    def hear(self, lines):
        """Gives the fit program lines and takes its reply. A repeated answer brings back what stands."""
        reply = self.fit.reply(lines)
        if reply in ("no 15 0", "no 16 0"):
            self.late += 1
        elif not reply.startswith(("ask ", "end ")):
            raise Failed(f"the fit program replies {reply} to: {lines.splitlines()[-1]}")
        elif reply != self.stands:
            self.stands = reply
            if reply.startswith("ask "):
                self.questions.append(reply)

    def run(self, analyst, out, back):
        """Asks until the end. Where no answer comes the question is asked again."""
        while self.stands.startswith("ask "):
            for question in out.carried(self.stands):
                for answer in back.carried(analyst.reply(question)):
                    self.hear(answer)


def start_lines(job, start):
    """Lines 1 to 3 of the fit program.

    A simplex begins with edges of a quarter of the start's coordinates and ends within 1 cm, 0.001 dB and 1e-6 dB^2. The others
    end where no coordinate of the gradient is above 1e-4. All else is the Rust's default.
    """
    if job == "simplex":
        options = f"{analyser.words_of([1e-4, 1e-6, 0.25])} - - 0 1"
    else:
        options = f"{analyser.words_of([1e-4, 0.0, 0.0, 1e-4, 0.9, 1e10])} - - 30 10 1"
    point = [value / unit for value, unit in zip(start, analyser.UNITS)]
    return f"{job} {len(point)}\n{options}\n{analyser.words_of(point)}"


class End:
    """What an `end` line says, in metres and dB."""

    def __init__(self, line):
        _, self.reason, self.converged, self.iterations, self.values, self.gradients, *words = line.split(" ")
        self.misfit, *point = analyser.values_of(" ".join(words))
        self.x, self.y, self.factor = metres(point)

    def off(self, survey):
        """How far from the true emitter it is."""
        return math.dist((self.x, self.y), survey.true[:2])


def metres(point):
    """A question's point in m, m and dB."""
    return [c * unit for c, unit in zip(point, analyser.UNITS)]


def described(end, survey, tablet, links):
    """What is printed about the end: names and what they are."""
    yield "reason", f"{end.reason}, {'converged' if end.converged == 'yes' else 'not converged'}, {end.iterations} iterations"
    yield "position", f"{end.x:.2f} m east, {end.y:.2f} m north"
    if survey.true:
        yield "", f"{end.off(survey):.2f} m from the true emitter"
    yield "antenna factor", f"{end.factor:.2f} dB(1/m)"
    yield "misfit", f"{end.misfit:.4f} dB^2, the sum over {sum(len(mast.readings) for mast in survey.masts)} readings"
    yield "questions", f"{len(tablet.questions)}: {end.values} values, {end.gradients} gradients"
    if links[0].loss:
        sent, lost, repeated = (sum(getattr(link, what) for link in links) for what in ("sent", "lost", "repeated"))
        yield "link", f"{sent} lines sent, {lost} lost, {repeated} repeated, {tablet.late} answers too late"
    yield "end line", tablet.stands


def drawn(job, end, survey, questions):
    """The picture of a fit."""
    points = [metres(analyser.values_of(question.split(" ", 3)[3]))[:2] for question in questions]
    title = f"{job}: {len(questions)} questions, {end.reason}"
    found = f"{end.x:.1f} m east, {end.y:.1f} m north, antenna factor {end.factor:.1f} dB(1/m)"
    off = f", {end.off(survey):.1f} m from the true emitter" if survey.true else ""
    return picture.picture(title, found + off, survey, points, (end.x, end.y))


class Parser(argparse.ArgumentParser):
    def error(self, message):
        raise Wrong(f"{message} (--help tells the use)")


def arguments():
    parser = Parser(prog="examples/locate.py", description="Fits an emitter's position and antenna factor to a survey.")
    parser.add_argument("job", nargs="?", default="simplex", choices=JOBS, help="simplex where none is given")
    parser.add_argument("--loss", type=float, default=0.0, metavar="P", help="lines lost, and repeated, at this rate: 0 to 0.5")
    parser.add_argument("--seed", type=int, default=1, metavar="S", help="which lines are lost and repeated")
    parser.add_argument("--survey", default=HERE / "survey.txt", metavar="FILE", help="the readings (examples/survey.txt)")
    parser.add_argument("--program", default=FIT, metavar="FILE", help="the fit program (crates/fit/out/fit)")
    picture_to = parser.add_mutually_exclusive_group()
    picture_to.add_argument("--svg", metavar="FILE", help="where the picture is written (target/JOB.svg)")
    picture_to.add_argument("--check", action="store_true", help="write none, but compare it with examples/JOB.svg")
    given = parser.parse_args()
    if not 0.0 <= given.loss <= 0.5:
        raise Wrong(f"--loss is 0 to 0.5, not {given.loss}")
    if not pathlib.Path(given.program).is_file():
        raise Wrong(f"{given.program}: no such program; `rt run` in crates/fit builds it")
    return given


def put(drawing, given):
    """Writes the picture, or compares it with the committed one. Returns what is printed about it."""
    path = HERE / f"{given.job}.svg" if given.check else pathlib.Path(given.svg or TARGET / f"{given.job}.svg")
    try:
        if not given.check:
            if not given.svg:
                TARGET.mkdir(exist_ok=True)
            path.write_text(drawing, encoding="utf-8")
        elif path.read_bytes() != drawing.encode("utf-8"):
            raise Failed(f"{path}: the picture drawn now differs from it")
    except OSError as why:
        raise Wrong(f"{path}: {why.strerror}") from None
    return f"{path}: the same bytes" if given.check else str(path)


def located(given, survey):
    """The tablet at the end of its fit, and both directions of its link."""
    chance = random.Random(given.seed)
    links = Link(given.loss, chance), Link(given.loss, chance)
    command = [sys.executable, str(HERE / "analyser.py"), str(given.survey)]
    with Child("the fit program", [os.path.abspath(given.program)]) as fit, Child("the analyser", command) as analyst:
        tablet = Tablet(fit, given.job, survey.start)
        tablet.run(analyst, *links)
    return tablet, links


def main():
    try:
        given = arguments()
        survey = analyser.survey_of(given.survey)
        tablet, links = located(given, survey)
        end = End(tablet.stands)
        where = put(drawn(given.job, end, survey, tablet.questions), given)
        for name, what in [*described(end, survey, tablet, links), ("picture", where)]:
            print(f"{name:<15} {what}")
    except (Wrong, Failed) as why:
        print(f"locate.py: {why}", file=sys.stderr)
        return 2 if isinstance(why, Wrong) else 1
    return 0


if __name__ == "__main__":
    sys.exit(main())
