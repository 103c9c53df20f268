"""Holds the reference to mpmath's own D and V, and its derivatives to the recurrences of DLMF 12.8."""

from fractions import Fraction

from mpmath import mp, mpf, pcfd, pcfv

from reference import Order

ORDERS = (-40.7, -12.0, -3.5, -0.3, 0.0, 0.3, 2.5, 7.0, 19.9, 45.5)
SAMPLES = [(v, x) for v in ORDERS for x in (0.1, 0.7, 3.1, 8.9)]
SAMPLES += [(-60.3, 20.0), (60.5, 20.0), (150.5, 5.0), (300.0, 60.0), (-7.3, 60.0)]
DIGITS = 25


def far(one, other):
    """Whether two numbers differ within the digits asked for."""
    return abs(one - other) > mpf(10) ** -DIGITS * max(abs(one), abs(other))


def differences(v, x, side, pairs, above):
    """What is wrong at one point: names of the numbers that differ. `above` are the pairs of the order v + 1."""
    (d, d1), (w, w1) = pairs
    mp.dps = 60
    x, v = mpf(x) * side, mpf(v)
    tried = {
        "D": (d, pcfd(v, x)),
        "V": (w, pcfv(-v - 0.5, x)),
        "D'": (d1, x / 2 * d - above[0][0]),
        "V'": (w1, x / 2 * w - (v + 1) * above[1][0]),
    }
    return [name for name, (one, other) in tried.items() if far(one, other)]


def check():
    """Raises an error where the reference differs; gives the number of points."""
    count = 0
    for v, x in SAMPLES:
        above = Order(Fraction(v) + 1).sides(x)
        for side, pairs, next_pairs in zip((1, -1), Order(v).sides(x), above):
            wrong = differences(v, x, side, pairs, next_pairs)
            if wrong:
                raise ArithmeticError(f"the reference differs at v = {v}, x = {side * x}: {wrong}")
            count += 1
    return count


if __name__ == "__main__":
    print(f"reference: {check()} points agree with mpmath to {DIGITS} digits")
