"""Asks the library, works out the reference, and gives the error of every answer."""

import struct
import subprocess
from collections import namedtuple
from math import inf, isfinite
from multiprocessing import Pool

from mpmath import mp, mpf, sqrt

import grid
import reference

UNIT = 2.0 ** -52
OVERFLOW, LEAST = mpf(2) ** 1024, mpf(2) ** -1022
EXPANSION_FROM = -20  # the expansion takes this order and those below
PROCESSES = 2

# `call` is D, V, E (the expansion) or M (the series). `value` and `derivative` are the errors as parts of the size
# named in `judged`, and `size` is that size; all are None where the true pair is no pair of normal floats.
Point = namedtuple("Point", "part call v x value derivative size")


def to_bits(number):
    return "%016x" % struct.unpack("<Q", struct.pack("<d", number))


def from_bits(text):
    return struct.unpack("<d", struct.pack("<Q", int(text, 16)))[0]


def answers(program, requests):
    """(value, derivative) of each request (call, numbers), by the program answers.c."""
    lines = "".join(" ".join([call, *map(to_bits, numbers)]) + "\n" for call, numbers in requests)
    output = subprocess.run([program], input=lines, stdout=subprocess.PIPE, text=True, check=True).stdout
    words = [line.split() for line in output.splitlines()]
    if len(words) != len(requests) or any(refusal != "0" for refusal, _, _ in words):
        raise RuntimeError("the library refused a request of the grid")
    return [(from_bits(value), from_bits(derivative)) for _, value, derivative in words]


def error(found, true, size):
    """|found - true| / size; infinite where no number was found."""
    return float(abs(mpf(found) - true) / size) if isfinite(found) else inf


def judged(pair, true, a, x):
    """The errors of a pair as parts of the local size of the function, and that size; or three times None.

    The size of the value is the larger of |w| and |w'|/q, that of the derivative q times it, with q the root of
    |x^2/4 + a| or 1 if that is less. Away from zeros this is the relative error.
    """
    mp.prec = 200
    w, slope = true
    if max(abs(w), abs(slope)) >= OVERFLOW:
        return None, None, None
    q = sqrt(max(mpf(1), abs(mpf(x) ** 2 / 4 + mpf(a.numerator) / a.denominator)))
    size = max(abs(w), abs(slope) / q)
    if size < LEAST:
        return None, None, None
    return error(pair[0], w, size), error(pair[1], slope, size * q), float(size)


def both_sides(size):
    """0, or an argument and its mirror."""
    return (size, -size) if size else (size,)


def calls(task):
    """The calls of a task: the expansion is asked where it takes the order, and has nothing to do with v - 1."""
    return "DVE" if task.v <= EXPANSION_FROM and task.part != grid.WORKED_OUT else "DV"


def task_points(job):
    """The points of one task; a job is the program and the task."""
    program, task = job
    sizes = sorted(task.sizes, reverse=True)
    asked = [(call, (task.v, x)) for size in sizes for x in both_sides(size) for call in calls(task)]
    found = iter(answers(program, asked))
    order = reference.Order(grid.worked_out(task.v) if task.part == grid.WORKED_OUT else task.v)
    points = []
    for size in sizes:
        for x, (d, v) in zip(both_sides(size), order.sides(size)):
            for call, true in zip(calls(task), (d, v, d)):
                points.append(Point(task.part, call, task.v, x, *judged(next(found), true, order.a, x)))
    return points


def points_of(program, tasks):
    """The points of all tasks, in their order, worked out by two processes."""
    with Pool(PROCESSES) as pool:
        lists = pool.map(task_points, [(program, task) for task in tasks], chunksize=4)
    return [point for points in lists for point in points]


def series_points(program):
    """The points of the series; `v` is its a."""
    asked = list(grid.series_inputs())
    found = answers(program, [("M", numbers) for numbers in asked])
    return [Point("", "M", a, x, *judged(pair, reference.series(a, x, c0, c1, e), reference.Fraction(a), x))
            for (a, x, c0, c1, e), pair in zip(asked, found)]
