#!/usr/bin/env python3
"""analyser.py [SURVEY]: the spectrum analyser of the example. It holds the readings and answers questions about their misfit.

It reads questions on standard input as the fit program prints them (`ask`, a number, a kind, the words of a point) and writes
answers on standard output (the number, the kind, words): V is the misfit at the point, G its gradient. An answer depends on the
point alone. A line of another form, or a SURVEY that is not one, ends it with one line on standard error and status 2.
"""
import decimal
import pathlib
import re
import struct
import sys
from typing import NamedTuple, Optional

SURVEY = pathlib.Path(__file__).with_name("survey.txt")
# The units of a question's coordinates: 100 m east, 100 m north, 10 dB. In them a step of 1 changes the readings by some dB in each
# coordinate, so that one initial step, one tolerance and one bound of the gradient suit all three.
UNITS = (100.0, 100.0, 10.0)
# 10 / ln 10: a change of a natural logarithm, in dB.
DECIBELS = 4.342944819032518
ASK = re.compile(r"ask ([0-9]+) ([VG])((?: [0-9A-F]{16}){3})\n")


class Wrong(Exception):
    """Wrong use, told in one line."""


class Mast(NamedTuple):
    name: str
    x: float
    y: float
    readings: list


class Survey(NamedTuple):
    eirp: float
    height: float
    start: list
    masts: list
    true: Optional[list] = None


def numbers(words, least, most):
    """So many numbers, none above 10,000 km."""
    values = [float(word) for word in words]
    if not (least <= len(values) <= most and all(abs(value) <= 1e7 for value in values)):
        raise ValueError
    return values


def enter(entries, key, words):
    """Adds one line of a survey to those before it. A mast's name begins with a letter, so that no number is taken for one."""
    if key == "mast" and words[0][0].isalpha():
        x, y, *readings = numbers(words[1:], 3, 1000)
        entries["masts"].append(Mast(words[0], x, y, readings))
    elif key in entries:
        raise ValueError
    elif key in ("eirp", "height"):
        (entries[key],) = numbers(words, 1, 1)
    elif key in ("start", "true"):
        entries[key] = numbers(words, 3, 3)
    else:
        raise ValueError


def survey_of(path):
    """The survey that a file holds."""
    try:
        lines = pathlib.Path(path).read_text(encoding="utf-8").split("\n")
    except OSError as why:
        raise Wrong(f"{path}: {why.strerror}") from None
    except UnicodeDecodeError:
        raise Wrong(f"{path}: not a text") from None
    entries = {"masts": []}
    for number, line in enumerate(lines, 1):
        words = line.split("#")[0].split()
        try:
            if words:
                enter(entries, words[0], words[1:])
        except (ValueError, IndexError):
            raise Wrong(f"{path}: line {number} is not a line of a survey: {line.strip()[:60]}") from None
    missing = [key for key in ("eirp", "height", "start") if key not in entries]
    if missing:
        raise Wrong(f"{path}: no line `{missing[0]}`")
    if entries["height"] < 1 or len({(mast.x, mast.y) for mast in entries["masts"]}) < 3:
        raise Wrong(f"{path}: a survey needs a height of 1 m or more and masts at three places or more")
    return Survey(**entries)


def log10(value):
    """By the decimal module, which rounds correctly: the last bits do not depend on the machine's C library."""
    return float(decimal.Decimal(value).log10(decimal.Context(prec=28)))


def power(survey, mast, x, y, factor):
    """The power that the model has at a mast, in dBm, and its slopes east and north, in dB per metre."""
    east, north = x - mast.x, y - mast.y
    square = east * east + north * north + survey.height * survey.height
    slope = -2.0 * DECIBELS / square
    return survey.eirp - 10.0 * log10(square / 0.6) - factor, slope * east, slope * north


def misfit(survey, point):
    """The sum of the squared residuals in dB, and its gradient, at a question's point.

    They are summed one by one: Python's own sum rounds otherwise from version 3.12 on.
    """
    total, gradient = 0.0, [0.0, 0.0, 0.0]
    for mast in survey.masts:
        model, east, north = power(survey, mast, *(c * unit for c, unit in zip(point, UNITS)))
        for reading in mast.readings:
            residual = model - reading
            total += residual * residual
            for i, slope in enumerate((east, north, -1.0)):
                gradient[i] += 2.0 * residual * slope * UNITS[i]
    return total, gradient


def words_of(values):
    """Numbers as the fit program reads and prints them."""
    return " ".join(struct.pack(">d", value).hex().upper() for value in values)


def values_of(words):
    return [struct.unpack(">d", bytes.fromhex(word))[0] for word in words.split()]


def answer(survey, line):
    """The answer to a question."""
    form = ASK.fullmatch(line)
    if not form:
        raise Wrong(f"not a question about three unknowns: {line.strip()[:60]}")
    number, kind, point = form.groups()
    value, gradient = misfit(survey, values_of(point))
    return f"{number} {kind} {words_of([value] if kind == 'V' else gradient)}"


def main():
    try:
        if len(sys.argv) > 2:
            raise Wrong("use: examples/analyser.py [SURVEY]")
        survey = survey_of(sys.argv[1] if len(sys.argv) == 2 else SURVEY)
        for line in sys.stdin:
            print(answer(survey, line), flush=True)
    except Wrong as why:
        print(f"analyser.py: {why}", file=sys.stderr)
        return 2
    return 0


if __name__ == "__main__":
    sys.exit(main())
