"""The branch of the source that a request takes, as a row of the table."""

from grid import whole

D_BRANCHES = [
    "D, v ≥ 0 whole, any x",
    "D, v ≥ 0 not whole, x < −5.8",
    "D, v ≥ 0 not whole, −5.8 ≤ x ≤ 5.8",
    "D, v ≥ 0 not whole, x > 5.8",
    "D, v < 0, x < −5.8",
    "D, v < 0, −5.8 ≤ x ≤ 0",
    "D, v < 0, 0 < x ≤ 2",
    "D, v < 0, 2 < x ≤ 5.8",
    "D, v < 0, x > 5.8",
]
V_BRANCHES = [
    "V, v < 0 whole, any x",
    "V, v < 0 not whole, x < −7.5",
    "V, v < 0 not whole, −7.5 ≤ x ≤ 7.5",
    "V, v < 0 not whole, x > 7.5",
    "V, v half-whole, x < 0",
    "V, v ≥ 0 whole, other x < −7.5",
    "V, v ≥ 0 not whole, other x < −7.5",
    "V, v ≥ 0, other −7.5 ≤ x < 0",
    "V, v ≥ 0, −10 ≤ x < 0 or 7.5 < x ≤ 10, v + 1 ≤ x²/2",
    "V, v ≥ 0, 0 ≤ x ≤ 7.5",
    "V, v ≥ 0, other x > 7.5",
]


def d_branch(v, x):
    """The branch of D."""
    if v >= 0 and whole(v):
        return "D, v ≥ 0 whole, any x"
    if v >= 0:
        side = "−5.8 ≤ x ≤ 5.8" if abs(x) <= 5.8 else "x > 5.8" if x > 0 else "x < −5.8"
        return "D, v ≥ 0 not whole, " + side
    if x < -5.8:
        return "D, v < 0, x < −5.8"
    side = "−5.8 ≤ x ≤ 0" if x <= 0 else "0 < x ≤ 2" if x <= 2 else "2 < x ≤ 5.8" if x <= 5.8 else "x > 5.8"
    return "D, v < 0, " + side


def v_branch(v, x):
    """The branch of V; half-whole orders at x < 0 have a row to themselves."""
    if x < 0 and whole(v + 0.5):
        return "V, v half-whole, x < 0"
    if v < 0 and whole(v):
        return "V, v < 0 whole, any x"
    if v < 0:
        side = "−7.5 ≤ x ≤ 7.5" if abs(x) <= 7.5 else "x > 7.5" if x > 0 else "x < −7.5"
        return "V, v < 0 not whole, " + side
    if 0 <= x <= 7.5:
        return "V, v ≥ 0, 0 ≤ x ≤ 7.5"
    if abs(x) <= 10 and v + 1 <= x * x / 2:
        return "V, v ≥ 0, −10 ≤ x < 0 or 7.5 < x ≤ 10, v + 1 ≤ x²/2"
    if x > 0:
        return "V, v ≥ 0, other x > 7.5"
    if x >= -7.5:
        return "V, v ≥ 0, other −7.5 ≤ x < 0"
    return f"V, v ≥ 0 {'whole' if whole(v) else 'not whole'}, other x < −7.5"


def branch(point):
    """The row of the table that a point of a table call belongs to."""
    return (d_branch if point.call == "D" else v_branch)(point.v, point.x)
