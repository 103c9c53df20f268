"""The tables of errors, as Markdown."""

from math import log10

import branches
import grid
from errors import UNIT, to_bits

LOST = 0.5  # from this error on no digit counts as right
LARGE, SMALL = 1e300, 1e-300  # between them the function is of ordinary size
HEAD = ("| {} | median | 9 of 10 below | value, largest measured | derivative, largest measured | no digit right |"
        " largest measured at v, x |\n|---|---|---|---|---|---|---|")


def count(error):
    """An error in units of 2^-52; "all" if no digit is right."""
    if error >= LOST:
        return "all"
    number = error / UNIT
    return f"{number:.1f}" if number < 100 else f"{number:.2g}".replace("e+0", "e").replace("e+", "e")


def units(error):
    """The same with the decimal digits that are lost."""
    if error >= LOST:
        return count(error)
    return f"{count(error)} ({max(0.0, log10(max(error, UNIT) / UNIT)):.1f})"


def worst(point):
    """The larger error of a pair."""
    return max(point.value, point.derivative)


def ordinary(point):
    """Whether the function is of ordinary size at a point."""
    return point.size is not None and SMALL <= point.size <= LARGE


def lost_digits(point):
    """The decimal digits that a pair has lost, at most 15.7."""
    return min(log10(max(worst(point), UNIT) / UNIT), -log10(UNIT))


def median(sizes):
    """The median of sorted numbers, or the larger of the two in the middle."""
    return sizes[len(sizes) // 2]


def row(name, points):
    """A row of a table."""
    if not points:
        return f"| {name} | | | | | none measured | |"
    sizes = sorted(map(worst, points))
    top = max(points, key=worst)
    cells = [
        name,
        units(median(sizes)),
        units(sizes[len(sizes) * 9 // 10]),
        units(max(point.value for point in points)),
        units(max(point.derivative for point in points)),
        f"{sum(size >= LOST for size in sizes)} of {len(sizes)}",
        f"{top.v!r}, {top.x!r}",
    ]
    return "| " + " | ".join(cells) + " |"


def by_branch(title, points):
    """A row for each branch of the table calls."""
    known = [point for point in points if ordinary(point) and point.call in "DV"]
    rows = [row(name, [point for point in known if branches.branch(point) == name])
            for name in branches.D_BRANCHES + branches.V_BRANCHES]
    return "\n".join([HEAD.format(title), *rows])


def as_request(point):
    """A point as a request by bits, which the command of the Rust package takes."""
    return f"{'expansion' if point.call == 'E' else point.call} 0x{to_bits(point.v)} 0x{to_bits(point.x)}"


def bits_of_largest(points):
    """For each branch the request with the largest error."""
    known = [point for point in points if ordinary(point) and point.call in "DV"]
    lines = []
    for name in branches.D_BRANCHES + branches.V_BRANCHES:
        top = max((point for point in known if branches.branch(point) == name), key=worst)
        lines.append(f"{as_request(top)}  {name}")
    return "\n".join(lines)


def band(points, v_ends, x_ends):
    """The points of D between these ends, wherever the true pair is one of normal floats."""
    return [point for point in points if point.call == "D" and point.size is not None
            and v_ends[0] <= point.v < v_ends[1] and x_ends[0] <= point.x < x_ends[1]]


def other_rows(points, series, ranges):
    """Rows for D in four bands, the series, and the recommended ranges where the function is not of ordinary size."""
    known = [point for point in points if point.part not in (grid.BESIDE, grid.WORKED_OUT)]
    far = [point for point in known if point.size is not None and not ordinary(point)
           and any(ranges.inside(point, chosen) for chosen in ranges.RANGES)]
    rows = [
        row("D, −20 ≤ v < 0, 1 ≤ x < 12", band(known, (-20, 0), (1, 12))),
        row("D, −20 ≤ v < 0, 36.5 ≤ x < 60", band(known, (-20, 0), (36.5, 60))),
        row("D, 0 ≤ v < 20, 4.5 ≤ x < 12", band(known, (0, 20), (4.5, 12))),
        row("D, 0 ≤ v < 20, 53 ≤ x < 60", band(known, (0, 20), (53, 60))),
        row("all ranges to recommend, above 1e300", [point for point in far if point.size > LARGE]),
        row("all ranges to recommend, below 1e−300", [point for point in far if point.size < SMALL]),
        row("maclaurin, a > 0 (a for v)", [point for point in series if point.v > 0]),
        row("maclaurin, a < 0 (a for v)", [point for point in series if point.v < 0]),
    ]
    return "\n".join([HEAD.format("calls"), *rows])
