"""The measured orders and arguments."""

from collections import namedtuple
from fractions import Fraction
from math import floor, inf, nextafter, ulp
from random import Random

SEED = 1  # of all that is drawn here; only `random` is called, whose numbers no version of Python changes

# No power of two divides these steps, so that products are rounded as they are at most arguments.
X_STEP = 0.49
WIDE_X_STEP = 1.96
FRACTION = 0.3
WIDE_V_STEP = 12
FINE_TOP, WIDE_TOP = 20.1, 58.8
EDGES = (2.0, 5.8, 7.5, 10.0)   # arguments at which the source changes its method
ENDS = (4.0, 15.0, 20.0)        # arguments at which a range to recommend ends
WIDE_ENDS = (25.0, 50.0, 53.0)  # the same beyond the fine grid

# FINE and WIDE are lattices; FINE_DRAWN and WIDE_DRAWN have orders and arguments drawn over the same fields; BESIDE has
# orders next to whole and half-whole ones, POWERS orders of a size in [2^k - 1, 2^k). WORKED_OUT are those of POWERS
# again, held to the true values at the order that the source works out. BANDS has small orders at large arguments.
FINE, FINE_DRAWN, WIDE, WIDE_DRAWN = "fine", "fine, drawn", "wide", "wide, drawn"
BESIDE, POWERS, WORKED_OUT, BANDS = "beside", "powers of two", "worked out", "bands"

WHOLES = (0, 1, 2, 3, 5, 10, 20, 40, 100, 200, 300)
# Distances from a whole or half-whole order: one is drawn between each two.
DISTANCES = (5e-2, 1e-3, 1e-6, 1e-9, 1e-12, 3e-15)
POWER_RANGE = range(1, 10)

# The calls of one order at arguments of these sizes and both signs.
Task = namedtuple("Task", "part v sizes")


def whole(v):
    """Whether an order is a whole number."""
    return v == floor(v)


def from_whole(v):
    """The distance of an order from the nearest whole one."""
    return abs(v - round(v))


def from_half(v):
    """The distance of an order from the nearest half-whole one."""
    return 0.5 - from_whole(v)


def worked_out(v):
    """The order that the source works out, exactly: v + 1 or v - 1, rounded, and one back."""
    return Fraction(v + 1.0) - 1 if v >= 0 else Fraction(v - 1.0) + 1


def edge_sizes():
    """Both sides of every edge."""
    return [side for x in EDGES for side in (x, nextafter(x, inf))]


def between(rng, low, high):
    """A number drawn between two."""
    return low + (high - low) * rng.random()


def drawn(rng, count, low, high):
    """Numbers drawn between two."""
    return [between(rng, low, high) for _ in range(count)]


def lattice():
    """Whole, half-whole and whole + 0.3 orders from -60 to 60; whole ones and whole + 0.3 from -300 to 300."""
    fine_sizes = [k * X_STEP for k in range(42)] + edge_sizes()
    wide_sizes = [k * WIDE_X_STEP for k in range(31)]
    for k in range(-60, 61):
        for part in (0.0, FRACTION, 0.5):
            yield Task(FINE, k + part, fine_sizes)
    for k in range(-300, 301, WIDE_V_STEP):
        for part in (0.0, FRACTION):
            yield Task(WIDE, k + part, wide_sizes)


def fine_drawn(rng):
    """For each unit of -60 to 60 the whole and the half-whole order and three drawn ones."""
    for k in range(-60, 60):
        for v in (float(k), k + 0.5, *drawn(rng, 3, k, k + 1)):
            sizes = drawn(rng, 6, 0, 5) + drawn(rng, 12, 0, FINE_TOP)
            yield Task(FINE_DRAWN, v, [*sizes, *edge_sizes(), *ENDS])


def wide_drawn(rng):
    """For each dozen of -300 to 300 a whole order, a half-whole and four others, all drawn."""
    for k in range(-300, 300, WIDE_V_STEP):
        one, other, *others = drawn(rng, 6, k, k + WIDE_V_STEP)
        for v in (float(floor(one)), floor(other) + 0.5, *others):
            sizes = drawn(rng, 8, 0, 10) + drawn(rng, 8, 10, WIDE_TOP)
            yield Task(WIDE_DRAWN, v, [*sizes, *ENDS, *WIDE_ENDS])


def beside(rng):
    """Orders on both sides of whole and half-whole ones, more beside 0, at drawn distances, never nearer than the next
    float."""
    centres = {sign * (k + half) for k in WHOLES for half in (0.0, 0.5) for sign in (1, -1)}
    for centre in [*sorted(centres), 0.0, 0.0, 0.0, 0.0]:
        for far, near in zip(DISTANCES, DISTANCES[1:]):
            for sign in (1, -1):
                distance = far * (near / far) ** rng.random()
                v = centre + sign * max(distance, ulp(centre))
                yield Task(BESIDE, v, [*drawn(rng, 9, 0, 10), *drawn(rng, 4, 10, FINE_TOP), *ENDS, 10.0])


def rounded_order(rng, k, sign):
    """An order of a size in [2^k - 1, 2^k) whose v + 1, or v - 1, is rounded, as half of them are; not beside a whole
    or half-whole one."""
    while True:
        v = sign * (2.0 ** k - rng.random())
        if worked_out(v) != v and min(from_whole(v), from_half(v)) >= DISTANCES[0]:
            return v


def powers(rng):
    """Orders of a size in [2^k - 1, 2^k), where v + 1 and v - 1 have a bit less for the fraction and are rounded."""
    for k in POWER_RANGE:
        for sign in (1, -1):
            for _ in range(8):
                v = rounded_order(rng, k, sign)
                sizes = drawn(rng, 8, 0, 8) + drawn(rng, 6, 8, 50)
                yield Task(POWERS, v, sizes)
                yield Task(WORKED_OUT, v, sizes)


def bands(rng):
    """Orders of a size below 20 at the large arguments at which D loses most."""
    for v in drawn(rng, 40, -20, 20):
        yield Task(BANDS, v, drawn(rng, 6, 36.5, 53) + drawn(rng, 4, 53, WIDE_TOP))


def tasks():
    """All of the grid."""
    rng = Random(SEED)
    return [*lattice(), *fine_drawn(rng), *wide_drawn(rng), *beside(rng), *powers(rng), *bands(rng)]


def series_inputs():
    """(a, x, c0, c1, e) of the series inside its range, the size of x times the root of that of a below 1."""
    starts = [(1.0, 0.0), (0.0, 1.0), (1.0, 0.7), (1.0, -0.7)]
    for a in (0.3, 1.7, 5.5, 20.3, 60.7, 150.1, 300.5):
        for part in (0.1, 0.3, 0.5, 0.7, 0.9, 0.99):
            for x in (part / a ** 0.5, -part / a ** 0.5):
                for c0, c1 in starts:
                    for e in (0.0, -30.3, 300.7):
                        yield a, x, c0, c1, e
                        yield -a, x, c0, c1, e
