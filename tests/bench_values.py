#!/usr/bin/env python3
"""bench_values.py: 01's bench values not marked P, as rows of crates/test_fits.

Each fit is written beside 01's words, with no Rust: lines given behind `< `, lines due behind `> `, an empty line at its end.
"""
import struct


def word(value):
    return struct.pack(">d", value).hex().upper()


ZERO, HALF, ONE, THREE_HALVES = word(0.0), word(0.5), word(1.0), word(1.5)
# c1, c2 and step_max as the Rust's defaults have them.
SEARCH = f"{word(1e-4)} {word(0.9)} {word(1e10)}"
C = 7149018786131517 * 2.0**-70
# 1 with its step of a difference added and subtracted.
AHEAD, BEHIND = word(1.0 + C), word(1.0 - C)


def simplex(words, x_tol, f_tol, restarts):
    """Lines 1 to 3, with initial_step 0.5 and no allowance."""
    return [f"< simplex {len(words)}", f"< {x_tol} {f_tol} {HALF} - - {restarts} 1", "< " + " ".join(words)]


def gradient(job, words, max_iter, max_evals, gradients):
    """Lines 1 to 3, with tolerances of 0 and memory 10."""
    options = f"< {ZERO} {ZERO} {ZERO} {SEARCH} {max_iter} - {max_evals} 10 {gradients}"
    return [f"< {job} {len(words)}", options, "< " + " ".join(words)]


def ask(number, words, kind="V"):
    return [f"> ask {number} {kind} " + " ".join(words)]


def level(value, reason, converged):
    """From 1 to 1.5, a size of 0.5 within x_tol 1; both values are equal, and the first point is the best."""
    return (
        simplex([ONE], ONE, ZERO, 0)
        + ask(1, [ONE])
        + [f"< 1 V {value}"]
        + ask(2, [THREE_HALVES])
        + [f"< 2 V {value}", f"> end {reason} {converged} 0 2 0 {value} {ONE}"]
    )


def told(job, max_evals, slope, reason, converged):
    """At 1 the value is 1 and the gradient is told."""
    return (
        gradient(job, [ONE], 0, max_evals, 1)
        + ask(1, [ONE])
        + [f"< 1 V {ONE}"]
        + ask(2, [ONE], "G")
        + [f"< 2 G {slope}", f"> end {reason} {converged} 0 1 1 {ONE} {ONE}"]
    )


def differenced(job, max_evals, ahead, reason, converged):
    """At 1 the value is 1, and so it is behind; ahead decides whether the gradient is 0."""
    return (
        gradient(job, [ONE], 0, max_evals, 0)
        + ask(1, [ONE])
        + [f"< 1 V {ONE}"]
        + ask(2, [AHEAD])
        + [f"< 2 V {ahead}"]
        + ask(3, [BEHIND])
        + [f"< 3 V {ONE}", f"> end {reason} {converged} 0 3 0 {ONE} {ONE}"]
    )


FITS = [
    # "f_tol 0, size within x_tol, spread 0: value 1 ObjectiveResolution, value 0 SimplexTolerance"
    level(ONE, "ObjectiveResolution", "no"),
    level(ZERO, "SimplexTolerance", "yes"),
    # "n 16 starts, 17 gives 2"
    simplex([ONE] * 16, ZERO, ZERO, 0) + ask(1, [ONE] * 16),
    simplex([ONE] * 17, ZERO, ZERO, 0) + ["> no 2 0"],
    # "restarts 100 starts, 101 gives 2"
    simplex([ONE], ZERO, ZERO, 100) + ask(1, [ONE]),
    simplex([ONE], ZERO, ZERO, 101) + ["> no 2 0"],
]

for name in ["bfgs", "lbfgs"]:
    FITS += [
        # "Gradient 0, max_iter 0, max_evals 0: GradientTolerance"
        told(name, 0, ZERO, "GradientTolerance", "yes"),
        differenced(name, 0, ONE, "GradientTolerance", "yes"),
        # "Gradient 1, grad_tol 0, max_iter 0: MaxIterations"; by differences a gradient above 0
        told(name, 30, ONE, "MaxIterations", "no"),
        differenced(name, 30, THREE_HALVES, "MaxIterations", "no"),
        # "n 16 starts, 17 gives 2"
        gradient(name, [ONE] * 16, 0, 30, 1) + ask(1, [ONE] * 16),
        gradient(name, [ONE] * 17, 0, 30, 1) + ["> no 2 0"],
    ]

for fit in FITS:
    print("\n".join(fit) + "\n")
