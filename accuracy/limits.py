"""Where an answer is 0 or not finite though the true value is a normal float."""

from math import isfinite

from errors import LEAST, OVERFLOW, answers
from reference import Order

STEP = 0.01
D_ORDERS = (-1.0, -10.3, -20.0, -40.3, -60.3, -100.3, -150.3, -200.3)
V_ORDERS = (1.0, 20.0, 100.0, 120.0, 150.0, 200.0)
HEAD = "| call, v | answer 0 or not finite from x = | true value out of range from x = |\n|---|---|---|"


def first_lost(program, call, v, start):
    """The first argument, in steps of 0.01, whose value is 0 or not finite, or None."""
    sizes = [round(start + k * STEP, 2) for k in range(1, 6000)]
    found = answers(program, [(call, (v, x)) for x in sizes])
    return next((x for x, (value, _) in zip(sizes, found) if value == 0 or not isfinite(value)), None)


def true_limit(call, v, low, high=80.0):
    """The argument, to 0.1, from which on the true value is out of range."""
    order = Order(v)
    while high - low > 0.05:
        middle = (low + high) / 2
        value = abs(order.sides(middle)[0]["DV".index(call)][0])
        if LEAST <= value < OVERFLOW:
            low = middle
        else:
            high = middle
    return round(high, 1)


def table(program):
    """The limits of D with v < 0 and of V with v >= 0, as Markdown."""
    rows = [("D", v, 2.0) for v in D_ORDERS] + [("V", v, 7.5) for v in V_ORDERS]
    lines = [f"| {call}, {v:g} | {first_lost(program, call, v, start)} | {true_limit(call, v, start)} |"
             for call, v, start in rows]
    return "\n".join([HEAD, *lines]).replace("-", "−").replace("−−−", "---")
