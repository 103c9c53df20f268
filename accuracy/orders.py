"""Tables of the orders that lose more: beside whole and half-whole ones, and where v + 1 or v - 1 is rounded."""

import grid
from grid import from_half, from_whole
from report import count, median, ordinary, units, worst

# (words, call, ends of v, which are left out, ends of x, distance)
BESIDE_ROWS = [
    ("D, v > 0, beside whole orders to 300, −4 ≤ x ≤ 4", "D", (0, 301), (-4, 4), from_whole),
    ("D, v < 0, beside 0, −5.8 ≤ x ≤ 0", "D", (-0.05, 0), (-5.8, 0), abs),
    ("D, v < 0, beside 0, −20.1 ≤ x ≤ −10", "D", (-0.05, 0), (-20.1, -10), abs),
    ("V, v < 0, beside 0, −7.5 ≤ x ≤ 7.5", "V", (-0.05, 0), (-7.5, 7.5), abs),
    ("V, v < 0, beside half-whole orders to −300.5, −20.1 ≤ x < 0", "V", (-301, 0), (-20.1, -5e-324), from_half),
    ("V, v > 0, beside whole orders to 10, −10 ≤ x ≤ 10", "V", (0, 10.25), (-10, 10), from_whole),
    ("V, v > 0, beside half-whole orders to 10.5, −10 ≤ x < 0", "V", (0, 11), (-10, -5e-324), from_half),
]
# (words, call, sign of v, ends of x)
POWER_COLUMNS = [
    ("D, v > 0, −4 ≤ x ≤ 4", "D", 1, (-4, 4)),
    ("D, v < 0, −5.8 ≤ x ≤ 0", "D", -1, (-5.8, 0)),
    ("D, v < 0, −50 ≤ x ≤ −10", "D", -1, (-50, -10)),
    ("V, v < 0, 0 ≤ x ≤ 7.5", "V", -1, (0, 7.5)),
]
SPANS = list(zip(grid.DISTANCES, grid.DISTANCES[1:]))


def cells(words):
    """A line of a table."""
    return "| " + " | ".join(words) + " |"


def headed(head, rows):
    """A table."""
    return "\n".join([cells(head), "|" + "---|" * len(head), *map(cells, rows)])


def shown(number):
    """A distance in the words of the tables."""
    return f"{number:g}".replace("e-0", "e−").replace("e-", "e−")


def beside_row(points, words, call, v_ends, x_ends, distance):
    """The largest errors of a row, one for each span of distances."""
    chosen = [point for point in points if point.call == call and v_ends[0] < point.v < v_ends[1]
              and x_ends[0] <= point.x <= x_ends[1]]
    spans = [[worst(point) for point in chosen if near < distance(point.v) <= far] for far, near in SPANS]
    return [words, *(units(max(sizes)) if sizes else "none" for sizes in spans)]


def beside_table(points):
    """The largest errors beside whole and half-whole orders, by the distance from them."""
    known = [point for point in points if ordinary(point) and point.part != grid.WORKED_OUT]
    head = ["largest measured at a distance of", *(f"{shown(far)} to {shown(near)}" for far, near in SPANS)]
    return headed(head, [beside_row(known, *row) for row in BESIDE_ROWS])


def power_cell(points, part):
    """Median and largest of the errors of a part of the grid."""
    sizes = sorted(worst(point) for point in points if point.part == part)
    return f"{count(median(sizes))}, {count(sizes[-1])}" if sizes else "none"


def power_row(points, k):
    """The errors at the orders of a size in [2^k - 1, 2^k)."""
    row = [f"{2 ** k - 1} to {2 ** k}"]
    for _, call, sign, (low, high) in POWER_COLUMNS:
        chosen = [point for point in points if point.call == call and low <= point.x <= high
                  and 2 ** k - 1 <= sign * point.v < 2 ** k]
        row.append(" / ".join(power_cell(chosen, part) for part in (grid.POWERS, grid.WORKED_OUT)))
    return row


def powers_table(points):
    """A row for each power of two."""
    known = [point for point in points if ordinary(point)]
    return headed(["size of v", *(words for words, *_ in POWER_COLUMNS)],
                  [power_row(known, k) for k in grid.POWER_RANGE])
