"""D and V with derivatives to 30 digits, from the series of DLMF 12.4 in whole-number arithmetic and mpmath's gamma.

D_v(x) = U(a, x) and V_v(x) = V(a, x) with a = -v - 1/2. Both are c0 u1 + c1 u2, with u1 and u2 the even and the odd
solution of w'' = (x^2/4 + a) w and c0, c1 the function and its derivative at 0 (DLMF 12.2.6 to 12.2.9).
Every point of D and V is worked out at two precisions that have to agree, and their Wronskian has to be sqrt(2/pi)
(DLMF 12.2.19). If not, both precisions are raised.
"""

from fractions import Fraction
from math import hypot, isqrt, log

from mpmath import mp, mpf, pi, rgamma, sqrt

AGREE_BITS = 100  # two precisions agree to this many bits
START_BITS = 960  # values at 0 have a multiple of these: mpmath's gamma prepares itself once for each precision


def dyadic(fraction):
    """(whole number, power of two below it) of a fraction whose denominator is a power of two."""
    return fraction.numerator, fraction.denominator.bit_length() - 1


def solution(a, x, odd, bits):
    """u1 or u2 and x times its derivative at x, as whole numbers over 2^bits."""
    p, p_shift = dyadic(a * x * x)
    q, q_shift = dyadic(x ** 4 / 4)
    n = 1 if odd else 0
    term = int((x if odd else 1) * 2 ** bits)
    before, total, slope = 0, term, n * term
    # past this index the terms only fall; rounding downwards leaves -1 or 0 of them
    last = 2 * isqrt(int(abs(a) * x * x)) + int(x * x)
    while abs(term) > 1 or abs(before) > 1 or n < last:
        step = ((p * term) >> p_shift) + ((q * before) >> q_shift)
        before, term = term, step // ((n + 1) * (n + 2))
        n += 2
        total += term
        slope += n * term
    return total, slope


def at_zero(a, bits):
    """(D, D', V, V') at argument 0."""
    mp.prec = bits
    h = mpf(a.numerator) / a.denominator / 2
    quarter, three = mpf(1) / 4, mpf(3) / 4
    two = mpf(2)
    above, next_above = rgamma(quarter + h), rgamma(three + h)
    below, next_below = rgamma(quarter - h), rgamma(three - h)
    d = sqrt(pi) * two ** (-h - quarter) * next_above
    d1 = -sqrt(pi) * two ** (quarter - h) * above
    v = pi * two ** (h + quarter) * next_below ** 2 * above
    v1 = pi * two ** (h + three) * below ** 2 * next_above
    return d, d1, v, v1


def solutions(a, x, bits):
    """u1, u1', u2, u2' at x."""
    mp.prec = bits
    if x == 0:
        return mpf(1), mpf(0), mpf(0), mpf(1)
    floats = []
    for odd in (False, True):
        total, slope = solution(a, x, odd, bits)
        floats += [mpf(total), mpf(slope) * x.denominator / x.numerator]
    return [number * mpf(2) ** -bits for number in floats]


def combined(c, u):
    """(value, derivative) of c0 u1 + c1 u2."""
    return c[0] * u[0] + c[1] * u[2], c[0] * u[1] + c[1] * u[3]


def growth_bits(a, x):
    """The bits by which the solutions grow up to x, about: the integral of sqrt(t^2/4 + |a|) from 0 to |x|. Where it
    is too few, two precisions do not agree and more are taken."""
    size, x = abs(float(a)), abs(float(x))
    turn = 2 * size ** 0.5
    root = hypot(x, turn)
    exponent = x * root / 4
    if size:
        exponent += size * log((x + root) / turn)
    return int(exponent / log(2)) + 8


def near(one, other):
    """Whether two pairs (value, derivative) agree."""
    return all(abs(p - q) <= abs(q) * mpf(2) ** -AGREE_BITS for p, q in zip(one, other))


class Order:
    """The functions of one order; the values at 0 are kept, so that the largest argument is best asked for first."""

    def __init__(self, v):
        self.a = -Fraction(v) - Fraction(1, 2)
        self.kept, self.kept_bits = None, 0

    def start(self, bits):
        """(D, D', V, V') at 0, with these bits or more."""
        if bits > self.kept_bits:
            self.kept_bits = -(-bits // START_BITS) * START_BITS
            self.kept = at_zero(self.a, self.kept_bits)
        return self.kept

    def tried(self, x, bits):
        """For x and -x: ((D, D'), (V, V'))."""
        start = self.start(bits)
        u = solutions(self.a, x, bits)
        mirrored = [u[0], -u[1], -u[2], u[3]]
        return [(combined(start[:2], w), combined(start[2:], w)) for w in (u, mirrored)]

    def sides(self, x):
        """For x and -x: ((D, D'), (V, V')), right to 30 digits."""
        x = Fraction(x)
        bits = 2 * growth_bits(self.a, x) + 2 * AGREE_BITS
        low = self.tried(x, bits)
        for _ in range(6):
            high = self.tried(x, bits + 64)
            if agree(low, high):
                return high
            bits += bits // 2
            low = self.tried(x, bits)
        raise ArithmeticError(f"no two precisions agree at a = {self.a}, x = {x}")


def agree(low, high):
    """Whether two precisions agree on both sides and the Wronskian is right."""
    wronskian = sqrt(2 / pi)
    for (d, v), (d_high, v_high) in zip(low, high):
        if not (near(d, d_high) and near(v, v_high)):
            return False
        found = d_high[0] * v_high[1] - d_high[1] * v_high[0]
        if abs(found - wronskian) > mpf(2) ** -AGREE_BITS:
            return False
    return True


def series(a, x, c0, c1, e):
    """w and w' at x, with w(0) = c0 exp(e) and w'(0) = c1 exp(e); at one precision, since little cancels in range."""
    a, x = Fraction(a), Fraction(x)
    bits = 2 * growth_bits(a, x) + 3 * AGREE_BITS
    pair = combined((mpf(c0), mpf(c1)), solutions(a, x, bits))
    return [number * mp.exp(mpf(e)) for number in pair]
