"""Holds the table of ranges to points drawn by the words of each range.

They come from another seed than the grid's and are none of its points. An order is any, whole, half-whole, beside one
of these, or of a size in [2^k - 1, 2^k); an argument is any, or beside an end of the range or an argument at which the
source changes its method.
"""

from math import floor
from random import Random

import errors
from grid import EDGES, POWER_RANGE, WIDE_TOP, WORKED_OUT, Task, between
from ranges import RANGES, all_orders, between_ends, inside, of_range
from report import LOST, as_request, ordinary, units, worst

SEED = 2
FACTOR = 4                   # no drawn error is above the row's largest measured times this
ORDERS, ARGUMENTS = 45, 8    # of a range
NOT_MEANT = 12               # orders between the ends of a range that its words leave out
FEWEST = 200                 # points that a range is held to at the least
NEXT = "Change the words of the row in accuracy/ranges.py or add such orders to accuracy/grid.py, and run again."


class NotHeld(Exception):
    """The table of ranges is not true of the drawn points."""


def either(rng, one, other):
    """One of two."""
    return one if rng.random() < 0.5 else other


def small(rng):
    """A number of any order of magnitude down to 1e-16, of either sign."""
    return either(rng, 1, -1) * 10 ** (-16 * rng.random())


def drawn_order(rng, low, high):
    """An order, most often between the two."""
    kind, v = int(6 * rng.random()), between(rng, low, high)
    if kind < 2:
        return v
    if kind < 5:
        centre = floor(v) + either(rng, 0.0, 0.5)
        return centre if kind == 2 else centre + small(rng)
    powers = [2.0 ** k for k in POWER_RANGE if 2 ** k - 1 <= max(-low, high)]
    size = powers[int(len(powers) * rng.random())] - rng.random()
    return size if high > 0 else -size


def drawn_argument(rng, low, high):
    """An argument, most often between the two."""
    if rng.random() < 0.7:
        return between(rng, max(low, -WIDE_TOP), min(high, WIDE_TOP))
    places = (low, high, 0.0, *EDGES, *(-edge for edge in EDGES))
    return places[int(len(places) * rng.random())] + small(rng)


def within(ends, number):
    return ends[0] <= number <= ends[1]


def drawn_task(rng, chosen):
    """(whether the words mean one of them, the task) of an order and arguments between the ends of a range."""
    v, arguments = drawn_order(rng, *chosen.v_ends), []
    while not within(chosen.v_ends, v):
        v = drawn_order(rng, *chosen.v_ends)
    while len(arguments) < ARGUMENTS:
        x = drawn_argument(rng, *chosen.x_ends)
        if within(chosen.x_ends, x) and abs(x) <= WIDE_TOP:
            arguments.append(x)
    return any(chosen.admits(v, x) for x in arguments), Task(chosen.name, v, [abs(x) for x in arguments])


def tasks(seed=SEED):
    """The orders of all ranges, and some that their words leave out."""
    rng, found = Random(seed), []
    for chosen in RANGES:
        meant, others = [], []
        while len(meant) < ORDERS:
            fits, task = drawn_task(rng, chosen)
            (meant if fits else others).append(task)
        found += meant + others[:NOT_MEANT]
    return found


def request(point):
    return point.call, point.v, point.x


def passing(points, value, derivative):
    """The points whose error is above these by more than the factor, the worst first."""
    found = [point for point in points if point.value > FACTOR * value or point.derivative > FACTOR * derivative]
    return sorted(found, key=worst, reverse=True)


def faults_of(chosen, measured, points):
    """(what is wrong with a range, the points that it is held to): points that pass the row, too few points, a row with
    no digit right, which nothing can pass, or words that leave out nothing."""
    row, held = of_range(measured, chosen), of_range(points, chosen)
    largest = max(point.value for point in row), max(point.derivative for point in row)
    left_out = [point for point in points
                if between_ends(point, chosen) and not inside(point, chosen) and ordinary(point)]
    faults = [f"{as_request(point)} passes the row '{chosen.name}': value {units(point.value)}, derivative "
              f"{units(point.derivative)}" for point in passing(held, *largest)[:3]]
    if max(largest) >= LOST:
        faults.append(f"the row '{chosen.name}' has points of the grid with no digit right")
    if len(held) < FEWEST:
        faults.append(f"the row '{chosen.name}' is held to {len(held)} points alone")
    if chosen.admits is not all_orders and not passing(left_out, *largest):
        faults.append(f"the row '{chosen.name}' leaves out orders without need: none of them passes it")
    return faults, held


def check(program, measured, seed=SEED):
    """Holds every range to drawn points; gives a sentence about them, or raises NotHeld."""
    measured = [point for point in measured if point.part != WORKED_OUT]
    known = {request(point) for point in measured}
    points = [point for point in errors.points_of(program, tasks(seed)) if request(point) not in known]
    faults, all_held = [], set()
    for chosen in RANGES:
        found, held = faults_of(chosen, measured, points)
        faults += found
        all_held.update(held)
    if faults:
        raise NotHeld("\n".join(["the table of ranges does not hold, and nothing is written:", *faults, NEXT]))
    return (f"The rows were held to {len(all_held):,} points drawn by their words, none of them in the grid:\n"
            f"no error is above {FACTOR} times the largest measured of its row.")
