#!/usr/bin/env python3
"""roots.py [--check]: writes crates/roots/stdin, patterns of f64, and crates/roots/stdout, each pattern with that of its root.

The roots are worked out here in whole numbers, by math.isqrt on the exact value, and shown to agree with a second witness,
math.sqrt of the machine, and with the published rows below. --check writes nothing and fails where the stored files differ."""
import math
import os
import struct
import sys

TOP = os.path.dirname(os.path.dirname(os.path.abspath(__file__)))
HID, INF, SIGN, QUIET = 1 << 52, 0x7FF << 52, 1 << 63, 0x7FF8 << 48

# Published roots, as decimals that the nearest f64 is meant of.
# CPython's Lib/test/cmath_testcases.txt: the rows of `sqrt` on the real axis, by their numbers there (the negative ones by the imaginary part).
PUBLISHED = {
    "sqrt0038": ("9.8813129168249309e-324", "3.1434555694052576e-162"),
    "sqrt0040": ("1e-305", "3.1622776601683791e-153"),
    "sqrt0042": ("1e-150", "9.9999999999999996e-76"),
    "sqrt0044": ("9.9999999999999998e-17", "1e-08"),
    "sqrt0046": ("0.001", "0.031622776601683791"),
    "sqrt0048": ("0.57899999999999996", "0.76092049518987193"),
    "sqrt0050": ("0.99999999999999989", "0.99999999999999989"),
    "sqrt0052": ("1.0000000000000002", "1.0"),
    "sqrt0054": ("1.0009999999999999", "1.000499875062461"),
    "sqrt0056": ("2.0", "1.4142135623730951"),
    "sqrt0058": ("23.0", "4.7958315233127191"),
    "sqrt0060": ("10000000000000000.0", "100000000.0"),
    "sqrt0062": ("9.9999999999999998e+149", "9.9999999999999993e+74"),
    "sqrt0064": ("1.0000000000000001e+299", "3.1622776601683796e+149"),
    "sqrt0128": ("7.9050503334599447e-323", "8.8910349979403099e-162"),
    "sqrt0129": ("1.8623241768349486e-309", "4.3154654173506579e-155"),
    "sqrt0130": ("2.665971134499887e-308", "1.6327801856036491e-154"),
    "sqrt0131": ("1.5477066694467245e-310", "1.2440685951533077e-155"),
    "sqrt0150": ("1.7976931348623157e+308", "1.3407807929942596355e+154"),
    "sqrt0151": ("2.2250738585072014e-308", "1.4916681462400413487e-154"),
    "sqrt0152": ("5e-324", "2.2227587494850774834e-162"),
    # <math.h>: M_SQRT2 and M_SQRT1_2; Rust's std::f64::consts: SQRT_3 and SQRT_5
    "M_SQRT2": ("2", "1.41421356237309504880"),
    "M_SQRT1_2": ("0.5", "0.70710678118654752440"),
    "SQRT_3": ("3", "1.732050807568877293527446341505872367"),
    "SQRT_5": ("5", "2.23606797749978969640917366873127623"),
}

# Document 01's bench pieces, by their patterns.
DOCUMENT = [
    (0x4010000000000000, 0x4000000000000000),
    (0x4000000000000000, 0x3FF6A09E667F3BCD),
    (0x0000000000000001, (1023 - 537) << 52),
    (0x7FEFFFFFFFFFFFFF, 0x5FEFFFFFFFFFFFFF),
    (SIGN, SIGN),
]


def bits(x):
    return struct.unpack("<Q", struct.pack("<d", x))[0]


def number(b):
    return struct.unpack("<d", struct.pack("<Q", b))[0]


def parts(b):
    """m and e with the number of the pattern b, above 0 and finite, m * 2^e."""
    return (b % HID, -1074) if b < HID else (HID + b % HID, (b >> 52) - 1075)


def nearest(m, e):
    """The pattern of the f64 nearest to m * 2^e above 0, at a tie the even one; the result is normal."""
    size = m.bit_length()
    drop = size - 53
    if drop > 0:
        q, rest = m >> drop, m & ((1 << drop) - 1)
        q += (rest, q & 1) > (1 << (drop - 1), 0)
    else:
        q = m << -drop
    if q == 1 << 53:
        q, drop = q >> 1, drop + 1
    return ((e + drop + 1075) << 52) + q - HID


def root(b):
    """The pattern of the root, by IEEE 754: of a zero itself, of infinity infinity, of what is negative or a NaN a NaN."""
    if b % SIGN == 0 or b == INF:
        return b
    if b >= SIGN or b > INF:
        return QUIET
    m, e = parts(b)
    if e % 2:
        m, e = 2 * m, e - 1
    # 60 digits and more of the root, and one that says whether anything is left
    w = math.isqrt(m << 120)
    return nearest(2 * w + (w * w != m << 120), e // 2 - 61)


def splitmix(state=1):
    while True:
        state = (state + 0x9E3779B97F4A7C15) % 2**64
        z = (state ^ (state >> 30)) * 0xBF58476D1CE4E5B9 % 2**64
        z = (z ^ (z >> 27)) * 0x94D049BB133111EB % 2**64
        yield z ^ (z >> 31)


def scaled(m, e):
    """The pattern of m * 2^e, which is one, or None."""
    while m and m % 2 == 0:
        m, e = m // 2, e + 1
    try:
        x = math.ldexp(m, e)
    except OverflowError:
        return None
    return bits(x) if m < 1 << 53 and x and (math.frexp(x)[0] == m / 2 ** m.bit_length()) else None


def around(b, steps=1):
    return [c for c in range(b - steps, b + steps + 1) if 0 <= c <= INF]


def lifted(d, digits):
    """The odd numbers w below 2^digits with w * w = d modulo 2^digits, for a d that is 1 modulo 8 (Hensel)."""
    found = [1, 3, 5, 7]
    for k in range(4, digits + 1):
        found = sorted({c for w in found for c in (w, w + (1 << (k - 1)), w + (1 << (k - 2))) if c < 1 << k and (c * c - d) % (1 << k) == 0})
    return found


def hard():
    """Numbers whose roots lie as near as can be to midway between two floats: w * w + d = m * 2^54 for an odd w of 54 digits and
    a small d, after W. Kahan, "A Test for Correctly Rounded SQRT" (1996)."""
    for d in [-1, 7, -9, 15, -17, 23, -25, 31, -33, 39, -41, 47, -49, 55, -57, 63]:
        for w in lifted(-d % (1 << 54), 54):
            m = (w * w + d) >> 54
            if w >> 53 and HID <= m < 4 * HID and scaled(m, 0) is not None:
                yield m


def inputs():
    draw = splitmix()
    yield "special", [0, SIGN, INF, SIGN | INF, QUIET, QUIET | SIGN, INF + 1, INF | SIGN | 1, (1 << 63) - 1, 2**64 - 1]
    yield "negative", [SIGN | 1, SIGN | HID, SIGN | bits(1.0), SIGN | bits(4.0), SIGN | (INF - 1)]
    yield "document 01", [b for b, _ in DOCUMENT]
    yield "published", [bits(float(x)) for x, _ in PUBLISHED.values()]
    yield "largest", [INF - k for k in range(1, 9)]
    yield "smallest", list(range(1, 18)) + around(HID, 8)
    yield "subnormal", [1 << k for k in range(52)] + [next(draw) >> (12 + k) for k in range(52)]
    yield "powers of two and their neighbours", [c for e in range(1, 2047, 31) for c in around(e << 52)]
    yield "small whole numbers", [bits(float(n)) for n in range(1, 65)]
    squares, midpoints = [], []
    for shift in range(-537, 486, 31):
        for _ in range(2):
            # the square of a number of 26 digits is a float, and of one of 53 digits it is rounded to one
            q = (1 << 25) + next(draw) % (1 << 25)
            squares += around(scaled(q * q, 2 * shift) or bits(1.0))
            w = (1 << 52) + next(draw) % (1 << 52)
            squares += around(nearest(w * w, 2 * (shift - 27)))
            midpoints += around(nearest((2 * w + 1) ** 2, 2 * (shift - 28)))
            # the same with an odd exponent
            w = (1 << 52) + next(draw) % (1 << 51)
            squares += around(nearest(2 * w * w, 2 * (shift - 27)))
            midpoints += around(nearest(2 * (2 * w + 1) ** 2, 2 * (shift - 28)))
    yield "squares and their neighbours", squares
    yield "squares of midpoints and their neighbours", midpoints
    yield "hardest to round, by Kahan", [scaled(m, e) for m in hard() for e in (-1126, -800, -53, -52, -2, 0, 1, 100, 917)]
    yield "any pattern", [next(draw) % SIGN for _ in range(200)]


def rows():
    seen = {}
    for section, patterns in inputs():
        for b in patterns:
            if b is not None and b not in seen:
                seen[b] = root(b)
    return seen


def witnesses(found):
    for b, r in found.items():
        x = number(b)
        if x >= 0:
            assert bits(math.sqrt(x)) == r, f"{b:016x}: {r:016x}, but the machine's root is {bits(math.sqrt(x)):016x}"
    for name, (x, y) in PUBLISHED.items():
        assert found[bits(float(x))] == bits(float(y)), name
    for b, r in DOCUMENT:
        assert found[b] == r, f"{b:016x}"


def main():
    found = rows()
    witnesses(found)
    texts = {
        "stdin": "".join(f"{b:016x}\n" for b in found),
        "stdout": "".join(f"{b:016x} {r:016x}\n" for b, r in found.items()),
    }
    for name, text in texts.items():
        path = os.path.join(TOP, "crates", "roots", name)
        if "--check" not in sys.argv[1:]:
            with open(path, "w") as f:
                f.write(text)
        elif open(path).read() != text:
            sys.exit(f"crates/roots/{name} is not what tests/roots.py makes")
    print(f"{len(found)} roots, and the machine's root agrees")


main()
