#!/usr/bin/env python3
"""solve_by_hand.py [--check]: writes the first part of crates/by_hand/stdout: the inner solve of that crate as the Rust plays it.

The questions, points, end and plan are what `oracle expect` prints, which runs the Rust files unchanged; the answers are worked
out here, in Python's floats. oracle/build.sh comes first. --check writes nothing and fails where the stored file differs."""
from by_hand import hold, numbers, play, word, words

CURVATURE = [1.0, 2.0, 8.0]
CENTRE = [3.0, -1.0, 0.25]
LOW = [-2.0, -0.5, -2.0]
HIGH = [2.0, 2.0, 2.0]
START = [1.5, 0.0, 0.0]
LIMIT = 5
TOLERANCE = 1e-4
AKKT_TOLERANCE = 1e-2


def cost(u):
    total = 0.0
    for q, x, c in zip(CURVATURE, u, CENTRE):
        total = total + 0.5 * q * (x - c) * (x - c)
    return total


def gradient(u):
    return [q * (x - c) for q, x, c in zip(CURVATURE, u, CENTRE)]


def project(p):
    return [min(max(x, low), high) for x, low, high in zip(p, LOW, HIGH)]


def answer(question):
    """The answer to a printed question, None at an end."""
    kind, *rest = question.split(" ")
    if kind == "cost":
        return "number " + word(cost(numbers(rest)))
    if kind == "gradient":
        return "vector " + words(gradient(numbers(rest)))
    if kind == "project":
        return "vector " + words(project(numbers(rest)))
    if kind == "direction":
        return "vector " + " ".join(rest[1:4])
    if kind == "time":
        return "yes"
    return None


def main():
    start = f"inner {len(START)} {LIMIT} 1 {word(TOLERANCE)} {word(AKKT_TOLERANCE)} {words(START)}"
    lines, lent = play(start, answer)
    plan = lent.split(" ")[1 : 1 + len(START)]
    hold({"inner solve": lines + ["plan " + " ".join(plan)]})


main()
