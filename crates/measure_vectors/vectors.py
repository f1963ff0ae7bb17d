#!/usr/bin/env python3
"""Write the program's standard input: bit exact vectors of the filter and of the whole value.

usage: vectors.py > stdin

A line is the bits of y before, its whole value (0 where y is not within the range), the reading v,
the filter constant F, the bits of y after and its whole value, all hexadecimal. y is a 64-bit float,
and Python rounds each of its operations once, as IEEE 754 does. The whole value is found in exact
fractions, another way than the program's. Nothing is random.
"""
import math
import struct
from fractions import Fraction

LOW, HIGH = -19999.0, 29999.0


def lag(y, v, f):
    v = float(v)
    if f == 0:
        return v
    x = y + ((v - y) * 10.0) / float(10 + f)
    if x < LOW:
        return LOW
    if x > HIGH:
        return HIGH
    return x


def whole(y):
    """The nearest whole number, halves away from zero; 0 where y is not within the range."""
    if not LOW <= y <= HIGH:
        return 0
    size = math.floor(abs(Fraction(y)) + Fraction(1, 2))
    return -size if y < 0 else size


def bits(y):
    return struct.unpack("<Q", struct.pack("<d", y))[0]


def near(y):
    """y and the floats next to it."""
    return [math.nextafter(y, -math.inf), y, math.nextafter(y, math.inf)]


def rows():
    # document 01's examples
    yield from [(100.0, 200, 10), (100.0, 101, 10), (-100.0, -101, 10)]
    # the ends of the range and the constants at their ends
    for y in [LOW, HIGH, 0.0, -0.0]:
        for v in [-19999, 29999, 0]:
            for f in [0, 1, 999]:
                yield y, v, f
    # a y that is not within the range, as no sound state holds it
    for y in [-20000.0, 30000.0, 1e300, -1e300, math.nextafter(LOW, -math.inf), math.nextafter(HIGH, math.inf)]:
        yield y, 29999, 1
        yield y, -19999, 65535
    # at a half and next to it, on both sides of 0; F 10 also makes a half of neighbours
    for half in [0.5, 1.5, 2.5, 100.5, 19998.5, 29998.5]:
        for y in near(half):
            if y <= HIGH:
                yield y, int(half) + 1, 1
            if -y >= LOW:
                yield -y, -int(half), 999
    for k in [0, 1, 2, 99, 19998, -1, -2, -99, -19999]:
        yield float(k), k + 1, 10
    for y in near(-2.0**-54) + near(2.0**-54):
        yield y, 1, 10
        yield y, -1, 10
    # the smallest floats
    for y in [5e-324, -5e-324, 2.2250738585072014e-308]:
        yield y, 0, 10
        yield y, -1, 999
    # long runs of the lag: every 23rd step of 400
    for f, reads in [(1, [-19999, 29999]), (7, [100, -250, 3]), (999, [29999]), (250, [-1, 0, 1]), (33, [601, 599, -600])]:
        y = 0.0
        for i in range(400):
            v = reads[i % len(reads)]
            if i % 23 == 0:
                yield y, v, f
            y = lag(y, v, f)


def number(n):
    """A whole number as a sign and four hexadecimal digits."""
    return f"{'-' if n < 0 else '+'}{abs(n):04x}"


for y, v, f in rows():
    next = lag(y, v, f)
    print(f"{bits(y):016x} {number(whole(y))} {number(v)} {f:04x} {bits(next):016x} {number(whole(next))}")
