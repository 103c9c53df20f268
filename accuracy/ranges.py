"""Ranges to recommend: fields in which few digits are lost, and what is lost there."""

from collections import namedtuple

from grid import WORKED_OUT, from_half, from_whole, whole
from report import HEAD, ordinary, row

APART, SLIGHTLY_APART = 0.05, 0.001  # from whole or half-whole orders, as in the names below
BEYOND = 1e4                         # an end for "any x": no true value of these ranges is a float there


def all_orders(_, __):
    return True


def whole_orders(v, _):
    return whole(v)


def apart_from_whole(v, _):
    return from_whole(v) >= APART


def apart_from_half(v, x):
    """At least 0.05 from half-whole orders, or x not below 0."""
    return x >= 0 or from_half(v) >= APART


def apart_from_both(v, x):
    """Whole or at least 0.001 from whole orders, and `apart_from_half`."""
    return apart_from_half(v, x) and (whole(v) or from_whole(v) >= SLIGHTLY_APART)


def beyond_ten(v, x):
    return abs(x) >= 10 and apart_from_half(v, x)


# The words, the call, the ends of v and x, which are included, and which orders and arguments between them are meant.
Range = namedtuple("Range", "name call v_ends x_ends admits")
HALF = "for x < 0 at least 0.05 from half-whole orders"
BOTH = "whole or at least 0.001 from whole orders, " + HALF
JUST_BELOW = -5e-324  # the greatest float below 0
RANGES = [
    Range("D, 0 ≤ v ≤ 300 whole, −20 ≤ x ≤ 20", "D", (0, 300), (-20, 20), whole_orders),
    Range("D, 0 ≤ v ≤ 300 whole, −53 ≤ x ≤ 53", "D", (0, 300), (-53, 53), whole_orders),
    Range("D, 0 ≤ v ≤ 60, at least 0.05 from whole orders, −4 ≤ x ≤ 4", "D", (0, 60), (-4, 4), apart_from_whole),
    Range("D, 0 ≤ v ≤ 300, at least 0.05 from whole orders, −4 ≤ x ≤ 4", "D", (0, 300), (-4, 4), apart_from_whole),
    Range("D, 0 ≤ v ≤ 300, 10 ≤ x ≤ 53", "D", (0, 300), (10, 53), all_orders),
    Range("D, −60 ≤ v ≤ −0.05, −5.8 ≤ x ≤ 0", "D", (-60, -0.05), (-5.8, 0), all_orders),
    Range("D, −300 ≤ v ≤ −0.05, −5.8 ≤ x ≤ 0", "D", (-300, -0.05), (-5.8, 0), all_orders),
    Range("D, −300 ≤ v ≤ −0.05, −50 ≤ x ≤ −10", "D", (-300, -0.05), (-50, -10), all_orders),
    Range("D, −5 ≤ v < 0, 0 ≤ x ≤ 2", "D", (-5, JUST_BELOW), (0, 2), all_orders),
    Range("D, −60 ≤ v < 0, 10 ≤ x ≤ 20", "D", (-60, JUST_BELOW), (10, 20), all_orders),
    Range("d_expansion, −300 ≤ v ≤ −20, x ≥ 0", "E", (-300, -20), (0, BEYOND), all_orders),
    Range("d_expansion, −300 ≤ v ≤ −20, x ≤ 0", "E", (-300, -20), (-BEYOND, 0), all_orders),
    Range("V, −60 ≤ v ≤ −0.05, −7.5 ≤ x ≤ 7.5, " + HALF, "V", (-60, -0.05), (-7.5, 7.5), apart_from_half),
    Range("V, −300 ≤ v ≤ −0.05, −7.5 ≤ x ≤ 7.5, " + HALF, "V", (-300, -0.05), (-7.5, 7.5), apart_from_half),
    Range("V, −300 ≤ v ≤ −0.05, x ≤ −10 or x ≥ 10, " + HALF, "V", (-300, -0.05), (-BEYOND, BEYOND), beyond_ten),
    Range("V, −300 ≤ v ≤ −0.05, any x, " + HALF, "V", (-300, -0.05), (-BEYOND, BEYOND), apart_from_half),
    Range("V, 0 ≤ v ≤ 5, −10 ≤ x ≤ 10, " + BOTH, "V", (0, 5), (-10, 10), apart_from_both),
    Range("V, 0 ≤ v ≤ 10, −10 ≤ x ≤ 10, " + BOTH, "V", (0, 10), (-10, 10), apart_from_both),
    Range("V, 0 ≤ v ≤ 5, 10 ≤ x ≤ 53", "V", (0, 5), (10, 53), all_orders),
    Range("V, 0 ≤ v ≤ 20, 15 ≤ x ≤ 53", "V", (0, 20), (15, 53), all_orders),
    Range("V, 0 ≤ v ≤ 60, 25 ≤ x ≤ 53", "V", (0, 60), (25, 53), all_orders),
]


def between_ends(point, chosen):
    """Whether a point has the call of a range and lies between its ends."""
    return (point.call == chosen.call and chosen.v_ends[0] <= point.v <= chosen.v_ends[1]
            and chosen.x_ends[0] <= point.x <= chosen.x_ends[1])


def inside(point, chosen):
    """Whether a point belongs to a range."""
    return between_ends(point, chosen) and chosen.admits(point.v, point.x)


def of_range(points, chosen):
    """The points of a range whose function is of ordinary size."""
    return [point for point in points if inside(point, chosen) and ordinary(point)]


def table(points):
    """A row for each range, over all parts of the grid."""
    asked = [point for point in points if point.part != WORKED_OUT]
    return "\n".join([HEAD.format("range"), *(row(chosen.name, of_range(asked, chosen)) for chosen in RANGES)])
