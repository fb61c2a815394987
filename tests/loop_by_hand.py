#!/usr/bin/env python3
"""loop_by_hand.py [--check]: writes the other parts of crates/by_hand/stdout: a small loop, then psi and d_psi, as the Rust plays them.

The questions, points, ends and lent places are what `oracle expect` prints, which runs the Rust files unchanged; the answers are
worked out here, in Python's floats, psi and its gradient too. oracle/build.sh comes first. --check writes nothing and fails where
the stored file differs."""
from by_hand import hold, numbers, play, word, words

M, K = 5, 3
START, XI = [0.5, 0.5], [2.0, 0.5]
TOLERANCE, EPSILON, DELTA, AKKT = 1e-2, 1e-1, 2e-1, 1e-1
PENALTY_FACTOR, EPSILON_FACTOR, COEFFICIENT = 5.0, 0.1, 0.1


def cost(u):
    return 0.5 * (u[0] - 1.0) * (u[0] - 1.0) + (u[1] - 2.0) * (u[1] - 2.0)


def gradient(u):
    return [u[0] - 1.0, 2.0 * (u[1] - 2.0)]


def f1(u):
    return u[0] * u[0] + u[1]


def jf1t(u, d):
    return [2.0 * u[0] * d, d]


def f2(u):
    return u[0] - 2.0 * u[1]


def jf2t(d):
    return [d, -2.0 * d]


def clamp(x, low, high):
    return min(max(x, low), high)


def project_c(x):
    return clamp(x, -1000.0, 1.0)


def psi(u, xi):
    c, y = xi
    t = f1(u) + y / max(c, 1.0)
    distance = (t - project_c(t)) * (t - project_c(t))
    return cost(u) + c / 2.0 * distance + c / 2.0 * (f2(u) * f2(u))


def d_psi(u, xi):
    c, y = xi
    t = f1(u) + y / c
    total = [g + c * j for g, j in zip(gradient(u), jf1t(u, t - project_c(t)))]
    return [g + c * j for g, j in zip(total, jf2t(f2(u)))]


def vector(xs):
    return "vector " + words(xs)


def answer(question):
    """The answer to a printed question, None at an end."""
    kind, *rest = question.split(" ")
    if kind in ("ended", "refused"):
        return None
    if kind == "time":
        return "yes"
    if kind == "direction":
        return "vector " + " ".join(rest[1:3])
    if "xi" in rest:
        u, xi = numbers(rest[:2]), numbers(rest[3:])
        return "number " + word(psi(u, xi)) if kind == "cost" else vector(d_psi(u, xi))
    if kind == "jf1t":
        return vector(jf1t(numbers(rest[:2]), numbers(rest[3:])[0]))
    if kind == "jf2t":
        return vector(jf2t(numbers(rest[3:])[0]))
    p = numbers(rest)
    answers = {
        "cost": lambda: "number " + word(cost(p)),
        "gradient": lambda: vector(gradient(p)),
        "f1": lambda: vector([f1(p)]),
        "f2": lambda: vector([f2(p)]),
        "project": lambda: vector([clamp(x, -2.0, 2.0) for x in p]),
        "project_c": lambda: vector([project_c(p[0])]),
        "project_y": lambda: vector([clamp(p[0], -10.0, 10.0)]),
    }
    return answers[kind]()


def main():
    settings = words([TOLERANCE, EPSILON, DELTA, AKKT, PENALTY_FACTOR, EPSILON_FACTOR, COEFFICIENT])
    lines, lent = play(f"loop 2 1 1 1 {M} {K} 1 {settings} 2 {words(START)} {words(XI)}", answer)
    end = [x for x in lent.split(" ") if x not in ("lent", "xi")]
    psi_lines, _ = play("psi 2 1 1 2 " + " ".join(end), answer)
    d_psi_lines, result = play("d_psi 2 1 1 2 " + " ".join(end), answer)
    assert d_psi_lines[-1] == "ended"
    d_psi_lines[-1] = "ended " + " ".join(result.split(" ")[1:3])
    hold({"loop": lines + [lent], "psi": psi_lines, "d_psi": d_psi_lines})


main()
